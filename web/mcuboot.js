// MCUboot's rule for several images, by docs/design.md of https://github.com/mcu-tools/mcuboot, "Multiple image boot",
// loop 2. Each image has its own swap type. An image isn't swapped in if an image that it needs won't run. An image on trial
// that wasn't confirmed is reverted by itself. This is a model of versions, drawn beside the proved decision. No code of
// MCUboot runs here. examples/fleet/mcuboot_rule.py has this rule too, and the stricter one of boot/bootutil/src/loader.c.

import { versionText } from "./library.js";

const isBelow = (a, b) => {
  const keys = ["major", "minor", "revision", "build"];
  const key = keys.find((it) => a[it] !== b[it]);
  return key !== undefined && a[key] < b[key];
};

export class PerImage {
  /** A device on which these images run, each `{ version, needs }`. */
  constructor(running) {
    this.images = running.map((primary) => ({ primary, secondary: null, asked: null, onTrial: false }));
  }

  request(image, secondary, permanent) {
    Object.assign(this.images[image], { secondary, asked: permanent ? "permanent" : "test" });
  }

  withdraw(image) {
    this.images[image].asked = null;
  }

  confirm(image) {
    this.images[image].onTrial = false;
  }

  boot() {
    const types = this.images.map((it) => (it.onTrial ? "revert" : it.asked));
    const runs = (i) => (types[i] ? this.images[i].secondary : this.images[i].primary);
    for (let i = 0; i < types.length; i += 1) {
      const isAsked = types[i] && types[i] !== "revert";
      if (isAsked && !this.images[i].secondary.needs.every((it) => this.isMet(it, runs))) {
        types[i] = null;
        i = -1;
      }
    }
    this.images.forEach((it, i) => types[i] && this.swap(it, types[i]));
  }

  swap(image, type) {
    [image.primary, image.secondary] = [image.secondary, image.primary];
    image.onTrial = type === "test";
    image.asked = null;
  }

  isMet({ image, minimum }, runs) {
    return image < this.images.length && !isBelow(runs(image).version, minimum);
  }

  /** Returns the running versions, and each of their dependencies that isn't met. */
  told() {
    const broken = this.images.flatMap(({ primary }, i) =>
      primary.needs
        .filter((it) => !this.isMet(it, (j) => this.images[j].primary))
        .map((it) => `image ${i} needs image ${it.image} at ${versionText(it.minimum)}`),
    );
    return { runs: this.images.map((it) => versionText(it.primary.version)), broken };
  }
}
