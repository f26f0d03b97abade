// Bits of a word as boxes: what they are is told by the look of a box, and by the words below.
import { element } from "./element.mjs";

/** A longer row of equal bits is cut short. */
const MOST_ALIKE = 8;
/** A guard of more bits than this is told by its value and its size. */
const MOST_BITS = 12;

/** A value in so many bits. */
export const inBits = (value, size) => (Number(size) === 0 ? "" : BigInt(value).toString(2).padStart(Number(size), "0"));

/** A guard as it is told in words: its bits, or of a long one its value and its size. */
export const guardInWords = (guard, size) => (Number(size) <= MOST_BITS ? inBits(guard, size) : `${guard} in ${size} bits`);

/** Bits as they are written, a long row of equal ones cut short. */
const shortened = (bits) => bits.replace(/0+|1+/gu, (row) => (row.length > MOST_ALIKE ? `${row[0]}…${row[0]}` : row));

/** A box with bits and what is said of them, or null where there are none. All of the bits are its title. */
export function drawBitBox(look, bits, words) {
  return bits === "" ? null : element("span", { class: `bits ${look}`, title: bits, "data-bits": bits }, shortened(bits),
    element("small", {}, words));
}
