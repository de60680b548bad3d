// The picture of a device: its flash as cells, the same in words, and a legend of the colours.

import { logOf, trailerWords } from "./flash.js";
import { versionText } from "./library.js";
import { SECTOR, SECTORS } from "./scene.js";

export function element(tag, words, ...inside) {
  const made = Object.assign(document.createElement(tag), words);
  made.append(...inside);
  return made;
}

/** Returns the text of a version, without a build number of 0: 2.0.0. */
export const shortVersion = (it) => versionText(it).replace(/\+0$/, "");

/** Returns a colour for a version of an image. It is light because the text on it is dark. */
const colour = (image, { major, minor, revision }) =>
  `hsl(${(image * 120 + 210 + (major * 23 + minor * 9 + revision * 5 - 23)) % 360} 75% ${[90, 76, 83][(major + minor + revision + 2) % 3]}%)`;

/** The parts of a scene's flash, as they are drawn: each with its cells, `{ text, kind, known, isChanged }`. */
class Drawn {
  constructor(scene, flash) {
    Object.assign(this, { scene, flash, before: scene.device.flash });
  }

  /** Returns the bytes of a sector of a part, after and before the writes that are shown. */
  sector(part, i) {
    return [this.flash, this.before].map((of) => of.subarray(part.at + i * SECTOR, part.at + (i + 1) * SECTOR));
  }

  isChanged(part, i) {
    const [now, before] = this.sector(part, i);
    return now.join() !== before.join();
  }

  slot(part) {
    return Array.from({ length: part.sectors }, (_, i) => {
      const known = this.scene.known.of(this.sector(part, i)[0]);
      const isChanged = this.isChanged(part, i);
      if (typeof known === "string") return { text: known === "torn" ? "torn" : "", kind: known, isChanged };
      return { text: shortVersion(known.version), kind: "known", known, isChanged };
    });
  }

  trailer(part) {
    const words = trailerWords(this.sector(part, 0)[0], SECTORS).join(", ");
    return { text: words, kind: "trailer", isChanged: this.isChanged(part, 0) };
  }

  log(part) {
    const logs = [this.flash, this.before].map((of) => logOf(of.subarray(part.at, part.at + 3 * SECTOR), SECTOR));
    return logs[0].counts.map((count, i) => {
      const records = count ? `${count} record${count === 1 ? "" : "s"}` : "";
      const text = i === logs[0].active ? `${records || "0 records"}: ${logs[0].state}` : records;
      const isChanged = count !== logs[1].counts[i] || (i === logs[0].active && logs[0].state !== logs[1].state);
      return { text, kind: "log", isChanged };
    });
  }

  /** Returns all parts, with a group for each image. */
  groups() {
    const { scene } = this;
    const images = Array.from({ length: scene.start.images }, (_, image) => ({
      name: `Image ${image}`,
      parts: ["primary", "secondary"].map((name, side) => ({
        name,
        cells: [...this.slot(scene.part("slot", image, side)), this.trailer(scene.part("trailer", image, side))],
      })),
    }));
    const parts = [
      { name: "scratch", cells: this.slot(scene.part("scratch")) },
      { name: "log", cells: this.log(scene.part("log")) },
    ];
    return [...images, { name: "Shared by the images", parts }];
  }
}

function cellOf({ text, kind, known, isChanged }) {
  const cell = element("div", { className: `cell ${kind}`, textContent: text });
  if (known) cell.style.background = colour(known.image, known.version);
  cell.classList.toggle("changed", isChanged === true);
  return cell;
}

/** Makes a line of the picture: a name, and its cells. */
const line = (name, cells, kind = "") =>
  element("div", { className: `part ${kind}` }, element("div", { className: "name", textContent: name }), element("div", { className: "cells" }, ...cells));

/** Makes the heads of the columns of an image. */
const headOf = () => ["slot", "trailer"].map((it) => element("div", { className: it, textContent: it }));

/** Returns cells in words: those of a slot as `2.0.0, torn, 1.0.0`, or once if all are equal. Trailers follow. */
function wordsOf(cells) {
  const words = cells.map(({ text, kind }) => (kind === "trailer" ? `trailer ${text || "empty"}` : text || "erased"));
  const slot = words.filter((_, i) => cells[i].kind !== "trailer");
  const alike = slot.every((it) => it === slot[0]) ? slot.slice(0, 1) : slot;
  return [...alike, ...words.slice(slot.length)].join(", ");
}

/** The legend: the kinds of cells, and their meanings. */
function legendOf(cells) {
  const versions = new Map(cells.filter((it) => it.known).map((it) => [`image ${it.known.image} ${it.text}`, it.known]));
  const known = [...versions].sort().map(([name, it]) => [{ kind: "known", known: it }, name]);
  const others = [
    [{ kind: "erased" }, "erased"],
    [{ kind: "torn" }, "torn: the bytes of no image"],
    [{ kind: "trailer" }, "trailers and log: what is asked for and under way"],
    [{ kind: "", isChanged: true }, "changed by the writes that are shown"],
  ];
  return [...known, ...others].map(([cell, name]) => element("li", {}, cellOf({ text: "", ...cell }), name));
}

/** Draws a scene's flash after some writes of its next boot, with a caption, into a place with a legend below it. */
export function drawFlash(scene, flash, caption, place, legend) {
  const groups = new Drawn(scene, flash).groups();
  const rows = groups.map(({ name, parts }, i) => {
    const lines = parts.map((it) => line(it.name, it.cells.map(cellOf), it.name));
    return element("div", { className: "image" }, element("strong", { textContent: name }), ...(i ? [] : [line("", headOf(), "head")]), ...lines);
  });
  place.replaceChildren(...rows);
  const words = groups.map(({ name, parts }) => `${name}: ${parts.map((it) => `${it.name} ${wordsOf(it.cells)}`).join("; ")}.`);
  place.setAttribute("aria-label", `${caption}. ${words.join(" ")}`);
  legend.replaceChildren(...legendOf(groups.flatMap((it) => it.parts.flatMap((part) => part.cells))));
}
