// The words of the kernel that a newcomer meets first, each explained where it first stands in a text, and all in a list.
import { element } from "../../page/source/element.mjs";

const TERMS = [
  ["CNode", /\bCNodes?\b/u, "A CNode is a table of slots. Capabilities stand in slots, and nowhere else."],
  ["slot", /\bslots?\b/iu, "A slot holds one capability, or nothing. It is named by its number in a CNode."],
  ["guard", /\bguards?\b/u, "A guard is some bits that a word has to have where a lookup comes to a CNode; the bits behind them choose the slot."],
  ["badge", /\bbadges?\b/u, "A badge is a number in a capability of an endpoint. A receiver is told it with each message; it is set once."],
  ["rights", /\brights?\b/u, "Rights say what a capability of an endpoint is good for: Write to send, Read to receive, Grant and GrantReply."],
  ["original", /\boriginal\b/u, "A capability is original where it is untyped or its badge differs from its source's. What is derived from it is its child."],
  ["endpoint", /\bendpoints?\b/u, "An endpoint is where messages pass: a sender waits there for a receiver, or a receiver for a sender."],
  ["untyped", /\buntyped\b/u, "Untyped memory is a region of which a retype makes objects: threads, endpoints, CNodes, smaller regions."],
  ["capability", /\bcapabilit(?:y|ies)\b/u, "A capability names an object and says what may be done with it. A thread does nothing but by its capabilities."],
];

const explained = (word, told) => element("dfn", { tabindex: "0", title: told, "aria-label": `${word}: ${told}` }, word);

/** All of them with what they mean, as the children of a list; what a capability is comes first. */
export const drawTerms = () => [TERMS.at(-1), ...TERMS.slice(0, -1)].flatMap(([word, , told]) =>
  [element("dt", {}, word), element("dd", {}, told)]);

/** A text as children of an element: the first place of each word that is not `seen` yet is explained, and seen then. */
export function withTerms(text, seen) {
  const found = TERMS.filter(([, pattern]) => !seen.has(pattern)).map(([, pattern, told]) => ({ pattern, told, match: pattern.exec(text) }))
    .filter(({ match }) => match).sort((one, other) => one.match.index - other.match.index)[0];
  if (!found) return [text];
  const { pattern, told, match: { 0: word, index } } = found;
  seen.add(pattern);
  return [text.slice(0, index), explained(word, told), ...withTerms(text.slice(index + word.length), seen)];
}
