// The exercises that belong together, as a row of numbers: which one is open, and what came of each.
import { button, dim, element } from "../../page/source/element.mjs";
import { exerciseOf } from "./exercise_text.mjs";
import { goalOf } from "./goal_text.mjs";

/** What came of an exercise, as a sign and in words. */
const SIGNS = { right: ["✓", "all right"], begun: ["◐", "begun"] };

/** The exercises of the topic that a text belongs to, or none where it stands alone. */
export function courseOf(topics, text) {
  const topic = topics.find(({ setups }) => setups.some((it) => it.text === text));
  const setups = topic?.setups.filter((it) => exerciseOf(it.text) ?? goalOf(it.text)) ?? [];
  return setups.length > 1 ? setups : [];
}

function drawNumber({ name, text }, number, { opened, came, open }) {
  const [sign, words] = SIGNS[came(text)] ?? ["", ""];
  const title = name.replace(/_/gu, " ");
  return button(`${number} ${sign}`, () => open(text, `${name}.toml`), { title, "aria-label": ["Exercise", title, words].filter(Boolean).join(" "),
    "aria-current": text === opened ? "true" : undefined });
}

/** Draws a row for a course into an element: `opened` is the text that is open, `came` tells what came of a text, and `open` is
    told the text and the name of one that is chosen. */
export function drawCourse(into, course, shown) {
  const groups = [...new Set(course.map(({ group }) => group))];
  into.replaceChildren(...groups.map((group) => element("span", { class: "lecture" }, group ? dim(group) : null,
    course.map((it, at) => (it.group === group ? drawNumber(it, at + 1, shown) : null)))));
}
