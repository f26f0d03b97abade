// Draws anew only what differs. A part of the page is drawn as new elements; those in the page that are equal to them
// stay as they are, and others take what differs. So a step lays out little, and what a reader opened stays open.
import { unfold } from "./element.mjs";

/** What has to be the same for a node to take what another one says: its kind, and its key where it has one. */
const nameOf = (node) => `${node.nodeName} ${node.dataset?.key ?? ""}`;

const foldsIn = (node) => (node.nodeType === Node.ELEMENT_NODE
  ? [node, ...node.querySelectorAll(".fold")].filter(({ drawRows }) => drawRows) : []);

function takeAttributes(old, now) {
  for (const { name } of [...old.attributes]) if (!now.hasAttribute(name)) old.removeAttribute(name);
  for (const { name, value } of now.attributes) {
    if (old.getAttribute(name) === value) continue;
    // The page's policy allows no style as an attribute.
    if (name === "style") old.style.cssText = value;
    else old.setAttribute(name, value);
  }
}

/** Makes a node say what a new one of its name says. */
function take(old, now) {
  if (old.open && now.drawRows) unfold(now);
  const folds = foldsIn(now);
  if (old.isEqualNode(now)) {
    foldsIn(old).forEach((folded, place) => {
      folded.drawRows = folds[place].drawRows;
    });
  } else if (old.nodeType === Node.TEXT_NODE) {
    old.data = now.data;
  } else {
    old.drawRows = now.drawRows;
    takeAttributes(old, now);
    redraw(old, [...now.childNodes]);
    if (old.nodeName === "SELECT") old.value = now.value;
  }
  return old;
}

/** For each new child the one that stands there already, by the names of both, each once, or the new one. */
function kept(parent, children) {
  const standing = new Map();
  for (const old of parent.childNodes) {
    const name = nameOf(old);
    if (standing.has(name)) standing.get(name).push(old);
    else standing.set(name, [old]);
  }
  return children.map((now) => {
    const old = standing.get(nameOf(now))?.shift();
    return old ? take(old, now) : now;
  });
}

/** Makes an element have children that say what the new ones say; texts are children too. */
export function redraw(parent, children) {
  const nodes = children.map((child) => (typeof child === "string" ? document.createTextNode(child) : child));
  const wanted = kept(parent, nodes);
  const stays = new Set(wanted);
  for (const old of [...parent.childNodes]) if (!stays.has(old)) old.remove();
  let next = parent.firstChild;
  for (const node of wanted) {
    if (node === next) next = next.nextSibling;
    else parent.insertBefore(node, next);
  }
}
