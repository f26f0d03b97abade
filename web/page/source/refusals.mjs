// The refusals of calls: the number of each in a reply, seL4's name for it, and what it means in short. ../refusals.py writes the list, as
// docs/errors.md has it.

/** `[code, name, words]`; the last two are this project's own and have no name in seL4. */
export const REFUSALS = [
  ["1", "InvalidArgument", "no object of this kind or size"],
  ["2", "InvalidCapability", "the slot is empty, or a right is missing"],
  ["3", "IllegalOperation", "the wrong kind of capability, or data that cannot be set"],
  ["4", "RangeError", "a number is out of range"],
  ["6/1", "InvalidRoot", "the lookup begins at no CNode"],
  ["6/2", "MissingCapability", "the source, or the CNode to fill, is missing"],
  ["6/3", "DepthMismatch", "too many bits, or too few"],
  ["6/4", "GuardMismatch", "bits that are not the guard's"],
  ["8", "DeleteFirst", "the slot to fill is full"],
  ["9", "RevokeFirst", "the untyped region has children"],
  ["10", "NotEnoughMemory", "the objects do not fit"],
  ["100", "", "no live thread at this address"],
  ["101", "", "the thread is not ready"],
];

const inWords = ([, name, words]) => [name, words].filter(Boolean).join(": ");
const byCode = new Map(REFUSALS.map((it) => [it[0], inWords(it)]));

/** A refusal in words, by its number: seL4's name, and what it means. */
export const refusalInWords = (code) => byCode.get(code) ?? "";

/** What a reply means where it is a refusal, or an empty text. */
export const meaningOf = (reply) => refusalInWords(/^refused (\S+)$/u.exec(reply)?.[1]);
