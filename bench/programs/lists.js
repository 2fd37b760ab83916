// A list of 1,000 numbers that is made by appending, and then, `size` times, read by index and handed to forEach.
const size = 100;
bp.registerBThread("Lists", () => {
  let heights = [];
  for (let i = 0; i < 1000; i++) heights = heights.concat(i * 37 % 101);
  for (let round = 0; round < size; round++) {
    let highest = 0;
    for (let i = 0; i < heights.length; i++) if (heights[i] > highest) highest = heights[i];
    heights.forEach((height, i, all) => height + all[all.length - 1 - i]);
    bp.sync({request: bp.Event("highest", highest)});
  }
});
