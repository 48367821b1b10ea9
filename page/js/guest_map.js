// Where guests' own registers put their regions now.

// The regions of one of a guest's functions, and where its own registers put them: [{ of, owner, region, space, first, last, open }]. One that
// Command disables is there once its base isn't 0, as it is after a reset. This is the one place that asks for it.
function regions_placed(machine, of, owner) {
  return of.regions.flatMap(region => {
    const now = machine.region(owner.guest, owner.slot, Number(region.name.slice(3)));
    if (now === null || (!now.open && now.first === 0n)) return [];
    return [{ of, owner, region, space: now.space, first: now.first, last: now.first + now.size - 1n, open: now.open }];
  });
}

// All that guests have placed, by guest and slot.
export function all_placed(machine, functions, owners) {
  return functions.filter(one => owners.has(one.path)).sort((a, b) => owners.get(a.path).slot - owners.get(b.path).slot)
    .flatMap(one => regions_placed(machine, one, owners.get(one.path)));
}

export const open_among = placed => placed.filter(one => one.open);
