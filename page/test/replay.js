// The page that replays a recording, which comes as a file.
import { wasm } from "../built.js";
import { replay, sentence } from "./calls.js";

const said = document.getElementById("said");

document.getElementById("recording").addEventListener("change", async change => {
  said.textContent = "at work";
  try {
    const recording = new Uint8Array(await change.target.files[0].arrayBuffer());
    said.textContent = sentence(await replay(wasm, recording));
  } catch (error) {
    said.textContent = String(error);
  }
});
said.textContent = "ready";
