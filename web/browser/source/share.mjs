// A set-up in an address: packed by the browser's own CompressionStream, behind the sign # of the page's address, which a
// browser sends to nobody. The address may also have the tab that is shown, its options, and a call.

/** An option of the tab stands in the address as on a command line. */
const OPTION = /^--/u;

/** What an address has in it is unpacked as far as this: a few letters can be packed that take a browser all its memory. */
const MOST_BYTES = 8 << 20;

/** Thrown of an address whose text is longer. */
export class TooLong extends Error {}

async function through(bytes, stream) {
  return new Uint8Array(await new Response(new Blob([bytes]).stream().pipeThrough(stream)).arrayBuffer());
}

/** The same of bytes that somebody else packed. */
async function unpacked(bytes, stream) {
  const parts = [];
  let length = 0;
  const reader = new Blob([bytes]).stream().pipeThrough(stream).getReader();
  for (let { done, value } = await reader.read(); !done; { done, value } = await reader.read()) {
    parts.push(value);
    length += value.length;
    if (length > MOST_BYTES) {
      reader.cancel();
      throw new TooLong();
    }
  }
  return new Blob(parts).arrayBuffer();
}

const toBase64 = (bytes) => btoa(Array.from(bytes, (byte) => String.fromCharCode(byte)).join(""))
  .replace(/\+/gu, "-").replace(/\//gu, "_").replace(/=+$/u, "");
const fromBase64 = (text) => Uint8Array.from(atob(text.replace(/-/gu, "+").replace(/_/gu, "/")),
  (letter) => letter.charCodeAt(0));

const packedText = async (text) => toBase64(await through(new TextEncoder().encode(text), new CompressionStream("deflate-raw")));
const unpackedText = async (packed) => new TextDecoder("utf-8", { fatal: true })
  .decode(await unpacked(fromBase64(packed), new DecompressionStream("deflate-raw")));

/** The part of an address that has a set-up and its name, from # on; with the tab, its options, the call and the policy that are
    given. */
export async function fragmentOf(text, name, { tab = "", options = {}, call = 0, policy = "" } = {}) {
  const packed = await packedText(text);
  const given = Object.entries(options).filter(([, value]) => value).map(([option, value]) => [`--${option}`, value]);
  const words = [["name", name], ...(tab ? [["tab", tab]] : []), ...given, ...(call ? [["call", String(call)]] : []),
    ...(policy ? [["policy", await packedText(policy)]] : [])];
  return `#${words.map(([word, value]) => `${word}=${encodeURIComponent(value)}`).join("&")}&setup=${packed}`;
}

/** What such a part has: `{ text, name, tab, options, call, policy }`, or null where it has no set-up. */
export async function readFragment(fragment) {
  const words = new URLSearchParams(fragment.slice(1));
  if (!words.has("setup")) return null;
  const given = [...words].filter(([word]) => OPTION.test(word)).map(([word, value]) => [word.replace(OPTION, ""), value]);
  return { text: await unpackedText(words.get("setup")), name: words.get("name") ?? "", tab: words.get("tab") ?? "",
    options: Object.fromEntries(given), call: Number(words.get("call")) || 0,
    policy: words.has("policy") ? await unpackedText(words.get("policy")) : "" };
}
