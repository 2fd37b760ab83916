// A machine that sells coffee and tea. Its slot for coins and its buttons are two injectors:
//
//     bp run examples/coffee_machine.js examples/coffee_machine.coins examples/coffee_machine.buttons
//
// A button is blocked until enough was paid for its drink, and coins are blocked while a hundred or more are in the machine; what is
// blocked keeps its place in the queue and is overtaken. When a coin and when a button is heard is no matter of the program, so its
// runs differ, but each of them sells all drinks and ends with a credit of 20. `coffee_machine.awk` has the rules of all runs, by which
// `check.sh` looks at every one; `coffee_machine.trace` is the run in which all coins come before the first button.
const drinks = [{name: "coffee", price: 50}, {name: "tea", price: 30}];

const button = drink => bp.Event("button", drink);
const named = name => bp.EventSet("any " + name, e => e.name === name);
const coins = named("coin");
const sales = named("sold");

// Each b-thread that has to know the credit hears for itself what changes it.
const changed = (credit, e) => e.name === "coin" ? credit + e.data : credit - e.data.price;

drinks.forEach(drink => {
  bp.registerBThread("Price of " + drink.name, () => {
    let credit = 0;
    while (true) {
      const blocked = credit < drink.price ? button(drink.name) : bp.none;
      credit = changed(credit, bp.sync({waitFor: [coins, sales], block: blocked}));
    }
  });

  bp.registerBThread("Sell " + drink.name, () => {
    while (true) {
      bp.sync({waitFor: button(drink.name)});
      bp.sync({request: bp.Event("sold", drink)});
    }
  });
});

bp.registerBThread("Slot", () => {
  let credit = 0;
  while (true) {
    const blocked = credit < 100 ? bp.none : coins;
    credit = changed(credit, bp.sync({waitFor: [coins, sales], block: blocked}));
  }
});

bp.registerBThread("Display", () => {
  let credit = 0;
  while (true) {
    credit = changed(credit, bp.sync({waitFor: [coins, sales]}));
    bp.log.info("credit " + credit);
  }
});
