"use strict";

// ---- a block model is checked by its names, sent with progress, and followed to its job

const of = (id) => document.getElementById(id);
const MEGABYTE = 1e6;
let dropped = null, sending = null, suggested = "";

function chosen() {
  return dropped || of("file").files[0] || null;
}

function suggest(file) {
  if (of("folder").value === suggested) {
    suggested = file.name.replace(/(\.csv\.gz|\.[a-z]+)$/i, "").replace(/^\.+/, "");
    of("folder").value = suggested;
  }
}

function complain(words) {
  of("problem").textContent = words;
  of("problem").hidden = words === "";
}

function isSending(is) {
  of("sending").hidden = of("stop").hidden = !is;
  of("send").disabled = of("file").disabled = of("folder").disabled = is;
}

function end(words) {
  sending = null;
  isSending(false);
  complain(words);
}

function told(event) {
  const part = event.total ? 100 * event.loaded / event.total : 100;
  of("sent").value = part;
  of("told").textContent = (event.loaded / MEGABYTE).toFixed(1) + " of " + (event.total / MEGABYTE).toFixed(1) + " MB sent";
}

function send(file, query) {
  const request = sending = new XMLHttpRequest();
  request.open("PUT", "/import/file?" + query);
  request.upload.onprogress = told;
  request.onload = () => {
    if (request.status === 201) {
      location.assign(JSON.parse(request.responseText).next);
    } else {
      end(request.responseText);
    }
  };
  request.onerror = () => end("The file was not sent: the server does not answer. Check that pitplan serve runs, and import it again.");
  request.onabort = () => end("");
  request.send(file);
}

of("file").addEventListener("change", () => {
  dropped = null;
  of("drop").textContent = "Or drop the file here";
  if (chosen()) {
    suggest(chosen());
  }
});

for (const name of ["dragover", "dragenter"]) {
  of("drop").addEventListener(name, (event) => {
    event.preventDefault();
    of("drop").classList.add("over");
  });
}

// A file that is dropped elsewhere on the page would take its place.
for (const name of ["dragover", "drop"]) {
  window.addEventListener(name, (event) => event.preventDefault());
}

of("drop").addEventListener("dragleave", () => of("drop").classList.remove("over"));

of("drop").addEventListener("drop", (event) => {
  event.preventDefault();
  of("drop").classList.remove("over");
  if (sending === null && event.dataTransfer.files.length === 1) {
    dropped = event.dataTransfer.files[0];
    of("file").required = false;
    of("drop").textContent = "Dropped: " + dropped.name;
    suggest(dropped);
    complain("");
  } else if (sending === null) {
    complain("Block model: drop one file.");
  }
});

of("stop").addEventListener("click", () => sending && sending.abort());

of("import").addEventListener("submit", (event) => {
  event.preventDefault();
  const file = chosen();
  const query = new URLSearchParams({ folder: of("folder").value, file: file.name, size: file.size }).toString();
  complain("");
  isSending(true);
  told({ loaded: 0, total: file.size });
  fetch("/import/check?" + query).then(async (answer) => {
    if (answer.ok) {
      send(file, query);
    } else {
      end(await answer.text());
    }
  }).catch(() => end("The server does not answer. Check that pitplan serve runs, and import the file again."));
});
