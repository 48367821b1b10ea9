// Whether two things are the same, part by part, so that what is drawn of them already isn't drawn again.

export const same_list = (one, other) => one === other || (one.length === other.length && one.every((each, nth) => each === other[nth]));

export const same_values = (one, other) => one === other || (one.size === other.size && [...one].every(([key, value]) => other.get(key) === value));

export const same_owners = (one, other) => one.size === other.size
  && [...one].every(([path, { guest, slot }]) => other.get(path)?.guest === guest && other.get(path).slot === slot);
