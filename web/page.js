// The page: its controls, and what they do with a scene.

import { NUMBERS, versionText } from "./library.js";
import { needsOf, versionOf } from "./images.js";
import { drawFlash, element, shortVersion } from "./picture.js";
import { EXAMPLES, Scene, hashOf, startOfHash } from "./scene.js";

const TORN = [0x5a, 0xa5];
const STEP = 150;

const REASONS = {
  1: () => "its bytes are no intact image",
  2: () => "it is older than what runs",
  3: () => "its security counter is below the floor",
  4: ([it]) => `it needs image ${it.image}, which this device lacks`,
  5: ([it]) => `it needs image ${it.image} at ${versionText(it.minimum)}, which can't run`,
  6: (all) => `it needs one of ${all.map((it) => `image ${it.image} at ${versionText(it.minimum)}`).join(", ")}, and none can run`,
};

const $ = (id) => document.getElementById(id);

/** Returns the lines for the reply to an event. */
function lines({ reply, isChecked }) {
  const images = [0, 1, 2, 3, 4, 5, 6, 7].filter((i) => (reply.set >> i) & 1).join(" ");
  const decided = reply.permanent ? "permanent" : reply.set ? "trial" : "plain";
  const more = { 1: decided, 2: `reverted ${images}`, 3: `trial-again ${images} left ${reply.left}` };
  const kinds = more[reply.number] ?? NUMBERS[reply.number];
  const made = [element("pre", { textContent: [kinds, reply.report].filter(Boolean).join("\n").trim() })];
  for (const it of reply.refused ?? []) {
    made.push(element("small", { textContent: `Image ${it.image} isn't taken: ${REASONS[it.reason](it.needs)}.` }));
  }
  if (reply.why) made.push(element("small", { textContent: `${reply.why}.` }));
  if (isChecked !== null) made.push(element("small", { className: "checked", textContent: `check: ${isChecked ? "yes" : "no"}` }));
  return made;
}

function drawEvents() {
  const items = scene.events.map((it) => element("li", {}, element("b", { textContent: it.what }), ...lines(it)));
  $("events").replaceChildren(...items);
  $("events").scrollTop = $("events").scrollHeight;
}

/** Returns a suggestion for what to try next, by the last event. */
function hint() {
  const { action, reply } = scene.events.at(-1);
  if (reply.number === 5) return "Power failed in a write of this boot. Step through the next boot: it goes on where this one was cut. Then press Boot.";
  if (reply.number === 4) return "The device refused that and changed nothing. The list of events says why.";
  if (!scene.device.isBooted) return action === "provision" ? "The device is new. Press Boot." : "The device is off. Press Boot.";
  if (reply.number === 2) return "The images weren't all confirmed, so the device reverted all of them. Upload again, or make another device.";
  if (action === "upload") return "The new images are in their secondary slots. Step through the next boot, cut the power in it, or press Boot.";
  if (action === "confirm") return "When every image on trial is confirmed, the next boot keeps them. Otherwise it reverts all of them.";
  if (reply.number === 3 || (reply.number === 1 && reply.set && !reply.permanent)) {
    return "The new images run on trial. Confirm each one and boot, or boot without: the device reverts them.";
  }
  if (reply.refused?.length) return "The device took no image that lacks what it needs. Upload the other one as well, and boot.";
  return `The device runs. Upload ${scene.start.images > 1 ? "new versions that need each other" : "a new version"}, then boot.`;
}

function drawPerImage() {
  const { runs, broken } = scene.perImage.told();
  $("mcuboot").hidden = !$("beside").checked;
  $("mcuboot").classList.toggle("broken", broken.length > 0);
  const text = broken.length ? `Broken: ${broken.join("; ")}.` : "Each image has what it needs.";
  $("mcuboot").replaceChildren(
    element("strong", { textContent: "By MCUboot's rule" }),
    element("p", { textContent: `${runs.map((it, i) => `image ${i} ${it}`).join(", ")}. ${text}` }),
    element("small", { textContent: "A model of what its design document says of several images: each is swapped and reverted by itself." }),
  );
}

/** Makes a label with an input. Its name for a screen reader includes the image. */
function field(name, image, input) {
  input.setAttribute("aria-label", `${name} of image ${image}`);
  return element("label", { className: name.toLowerCase() }, name, input);
}

function rowOf(image) {
  const text = (name, value, placeholder) => element("input", { type: "text", name: `${name}${image}`, value, placeholder, autocomplete: "off" });
  const options = ["test", "permanent"].map((it) => element("option", { textContent: it }));
  const act = (name) => {
    const button = element("button", { type: "button", textContent: name, onclick: () => run({ do: name.toLowerCase(), image }) });
    button.setAttribute("aria-label", `${name} image ${image}`);
    return button;
  };
  const tick = element("input", { type: "checkbox", name: `tick${image}`, checked: image < 2 });
  const isPaired = image < 2 && scene.start.images > 1;
  return element("fieldset", {},
    element("legend", {}, element("label", {}, tick, `Image ${image}`)),
    field("Version", image, text("version", "2.0.0", "2.0.0")),
    field("Needs", image, text("needs", isPaired ? `${1 - image} 2.0.0` : "", "1 2.0.0, 2 1.1")),
    field("Request", image, element("select", { name: `kind${image}` }, ...options)),
    element("div", { className: "running" }, element("span"), act("Confirm"), act("Withdraw")));
}

function drawRunning() {
  const spans = document.querySelectorAll("#rows .running span");
  spans.forEach((it, image) => {
    const runs = scene.device.slot(image, 0);
    it.textContent = runs ? `primary: ${shortVersion(runs)}` : "primary: no intact image";
  });
}

let module;
let scene;

let playing = null;

function stop() {
  clearInterval(playing);
  playing = null;
  $("play").textContent = "Play";
}

/** Steps through the writes of the next boot, from the start if all are shown. */
function play() {
  if (playing) return stop();
  if ($("write").value === $("write").max) $("write").value = 0;
  $("play").textContent = "Stop";
  playing = setInterval(() => {
    $("write").stepUp();
    drawShown();
    if ($("write").value === $("write").max) stop();
  }, STEP);
}

function drawScene() {
  stop();
  const writes = scene.writes;
  $("write").max = writes;
  $("write").value = 0;
  $("write").disabled = $("play").disabled = !writes;
  drawShown();
  drawEvents();
  drawPerImage();
  drawRunning();
  $("up").textContent = scene.device.isBooted ? "The device is booted." : "The device isn't booted.";
  $("next").textContent = hint();
  $("link").href = scene.hash;
  history.replaceState(null, "", scene.hash);
}

function drawShown() {
  const [count, writes] = [Number($("write").value), Number($("write").max)];
  const caption = count ? `The flash after ${count} of ${writes} writes of the next boot` : "The flash now";
  $("caption").textContent = caption;
  drawFlash(scene, scene.after(count, writes), caption, $("flash"), $("legend"));
  $("shown").textContent = writes ? `after ${count} of ${writes} writes` : "it writes nothing";
  $("cut").disabled = count >= writes;
}

function run(action) {
  $("note").hidden = true;
  scene.act(action);
  drawScene();
}

function show(id, text) {
  $(id).textContent = text;
  $(id).hidden = false;
}

async function start(given) {
  document.body.dataset.ready = "";
  scene = await Scene.load(module, given);
  $("images").value = scene.start.images;
  $("boots").value = scene.start.boots;
  $("rows").replaceChildren(...Array.from({ length: scene.start.images }, (_, i) => rowOf(i)));
  $("fault").textContent = "";
  drawScene();
  document.body.dataset.ready = "yes";
}

/** Starts the scene in the address of the page. */
async function startOfAddress() {
  const given = startOfHash(location.hash);
  $("note").hidden = true;
  await start(given ?? startOfHash(""));
  if (!given) show("note", "The link's scene isn't understood, so this is a new device.");
}

function rowsOf(form) {
  const rows = Array.from({ length: scene.start.images }, (_, image) => ({
    image,
    version: versionOf(form[`version${image}`].value),
    needs: needsOf(form[`needs${image}`].value),
    permanent: form[`kind${image}`].value === "permanent",
  })).filter((it) => form[`tick${it.image}`].checked);
  const bad = rows.find((it) => !it.version || !it.needs);
  $("fault").textContent = bad ? `image ${bad.image}: a version is as 2.0.0, and what it needs as 1 2.0.0, 2 1.1` : rows.length ? "" : "tick an image";
  const needsText = (needs) => needs.map((it) => `${it.image} ${versionText(it.minimum)}`).join(", ");
  return bad ? [] : rows.map((it) => ({ ...it, version: versionText(it.version), needs: needsText(it.needs) }));
}

function listen() {
  $("boot").onclick = () => run({ do: "boot" });
  $("reset").onclick = () => run({ do: "reset" });
  $("write").oninput = () => {
    stop();
    drawShown();
  };
  $("play").onclick = play;
  $("beside").onchange = drawPerImage;
  $("cut").onclick = () => {
    const left = $("leaves").value;
    run({ do: "boot", cut: { write: Number($("write").value) + 1, left: left === "torn" ? TORN : left } });
  };
  $("upload").onsubmit = (event) => {
    event.preventDefault();
    const rows = rowsOf(event.target.elements);
    if (rows.length) run({ do: "upload", rows });
  };
  $("setup").onsubmit = (event) => {
    event.preventDefault();
    $("note").hidden = true;
    start({ images: Number($("images").value), boots: Number($("boots").value), actions: [] });
  };
  for (const [name, it] of Object.entries(EXAMPLES)) $(name).href = hashOf(it);
  addEventListener("hashchange", startOfAddress);
}

async function library() {
  const answer = await fetch("bootswap.wasm");
  if (!answer.ok) throw new Error(`bootswap.wasm: ${answer.status} ${answer.statusText}`);
  return WebAssembly.compile(await answer.arrayBuffer());
}

try {
  module = await library();
} catch (error) {
  const needed = error instanceof WebAssembly.CompileError ? "The browser has to have WebAssembly with 64-bit memory." : "web/build makes it.";
  show("trouble", `There is no device to show, as its library didn't load: ${error.message}. ${needed}`);
}
$("loading").hidden = true;
if (module) {
  listen();
  document.querySelector("main").hidden = false;
  await startOfAddress();
} else document.body.dataset.ready = "failed";
