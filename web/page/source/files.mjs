// Opens a trace from a file, chosen by the file picker or dropped onto the page, or from the page around this one. It
// stays in the browser.

/** Tells `open` the text and the name of each file that a picker chooses or that is dropped. */
export function listenToFiles(pickers, open) {
  const read = async (file) => open(await file.text(), file.name);
  for (const picker of pickers) {
    picker.addEventListener("change", () => {
      if (picker.files.length > 0) read(picker.files[0]);
      picker.value = "";
    });
  }
  document.addEventListener("dragover", (event) => event.preventDefault());
  document.addEventListener("drop", (event) => {
    event.preventDefault();
    if (event.dataTransfer.files.length > 0) read(event.dataTransfer.files[0]);
  });
}

/** Tells `open` the trace, the name and the number of the call that a page tells which has this one in a frame, `show` a number that it
    tells alone, and `tell` what is wrong with a call that was asked for. */
export function listenToParent(open, show, tell) {
  if (window.parent === window) return;
  document.body.dataset.framed = "";
  window.addEventListener("message", ({ source, data }) => {
    if (source !== window.parent) return;
    if (data.fault !== undefined) tell(data.fault);
    else if (data.trace === undefined) show(data.number);
    else open(data);
  });
}

/** Asks the page around this one for what it does with calls that the run does not have. */
export function askParent(asked, told = {}) {
  window.parent.postMessage({ asked, ...told }, "*");
}

/** Saves a text, or bytes, as a file. */
export function saveFile(content, name) {
  const address = URL.createObjectURL(new Blob([content], { type: name.endsWith(".svg") ? "image/svg+xml" : "" }));
  const link = document.createElement("a");
  Object.assign(link, { href: address, download: name });
  link.click();
  setTimeout(() => URL.revokeObjectURL(address), 10_000);
}

/** Tells the page around this one, where there is one, the number of the call that is shown. */
export function tellParent(number) {
  if (window.parent !== window) window.parent.postMessage({ shown: number }, "*");
}
