// A vending machine. Each b-thread holds one rule of it, and the customer's coins and buttons are external events, which the
// script enqueues. The first button is pressed before enough was paid: its event is blocked, keeps its place in the queue, and
// is overtaken by the coins behind it.
const drinks = [{name: "soup", price: 50}, {name: "tea", price: 30}];

const coin = value => bp.Event("coin", value);
const button = drink => bp.Event("button", drink);
const named = name => bp.EventSet("any " + name, e => e.name === name);
const coins = named("coin");
const buttons = named("button");
const pourings = named("pour");
const changes = named("change");

drinks.forEach(drink => {
  // Nothing is sold below its price. A b-thread copies the drink that it is made for.
  bp.registerBThread("Price of " + drink.name, () => {
    let paid = 0;
    while (true) {
      const e = bp.sync({waitFor: [coins, changes], block: paid < drink.price ? button(drink.name) : bp.none});
      paid = e.name === "coin" ? paid + e.data : 0;
    }
  });

  bp.registerBThread("Make " + drink.name, () => {
    while (true) {
      bp.sync({waitFor: button(drink.name)});
      bp.sync({request: bp.Event("pour", drink.name)});
      bp.sync({request: bp.Event("sold", drink)});
    }
  });
});

bp.registerBThread("A cup before each pouring", () => {
  while (true) {
    bp.sync({waitFor: buttons});
    bp.sync({request: bp.Event("cup"), block: pourings});
  }
});

bp.registerBThread("Till", () => {
  let paid = 0;
  while (true) {
    const e = bp.sync({waitFor: [coins, named("sold")]});
    if (e.name === "coin") {
      paid += e.data;
      bp.log.info("paid " + paid);
    } else {
      bp.sync({request: bp.Event("change", paid - e.data.price)});
      paid = 0;
    }
  }
});

const customer = [coin(20), button("soup"), coin(20), coin(20), button("tea"), coin(20), coin(10)];
customer.forEach(e => bp.enqueueExternalEvent(e));
