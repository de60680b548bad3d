// What tests/test_page.py looks for on the page: each function returns what is wrong, or does something there.

// Shows what is hidden until a user asks for it, and a fault of the form.
function showAll() {
    document.querySelector('details').open = true;
    document.getElementById('beside').click();
    document.querySelector('[name=version0]').value = 'x';
    document.querySelector('#upload > button').click();
    const write = document.getElementById('write');
    write.value = write.max >> 1;
    write.oninput();
}

// Returns what the right edge cuts off, and what has no space for its text.
function tooWide() {
    const width = document.documentElement.clientWidth;
    const faults = [];
    if (document.documentElement.scrollWidth > innerWidth) faults.push(`the page is ${document.documentElement.scrollWidth} wide`);
    for (const it of document.querySelectorAll('body *')) {
        const { left, right } = it.getBoundingClientRect();
        if (it.checkVisibility() && (left < 0 || right > width + 0.5)) faults.push(`${it.outerHTML.slice(0, 80)} ends at ${right}`);
    }
    for (const it of document.querySelectorAll('button, .cell, .name, legend, #legend li')) {
        if (it.scrollWidth > it.clientWidth + 1) faults.push(`no room for the text of ${it.outerHTML.slice(0, 80)}`);
    }
    return faults.slice(0, 5);
}

// Returns the texts that are hard to read: with a contrast below 4.5, by WCAG 2.1. And the number of texts.
function faint() {
    const numbers = (colour) => {
        if (!/^rgba?\(/.test(colour)) throw new Error(colour);
        const [r, g, b, a = 1] = colour.match(/[\d.]+/g).map(Number);
        return [r, g, b, a];
    };
    const over = ([r, g, b, a], below) => [r, g, b].map((it, i) => it * a + below[i] * (1 - a));
    const behind = (it) => {
        if (!it) return [255, 255, 255];
        const style = getComputedStyle(it);
        if (style.backgroundImage !== 'none' || style.opacity !== '1') throw new Error(`not a plain ground: ${it.className}`);
        const own = numbers(style.backgroundColor);
        return own[3] === 1 ? own.slice(0, 3) : over(own, behind(it.parentElement));
    };
    const luminance = (colour) => {
        const [r, g, b] = colour.map((it) => it / 255).map((it) => (it <= 0.04045 ? it / 12.92 : ((it + 0.055) / 1.055) ** 2.4));
        return 0.2126 * r + 0.7152 * g + 0.0722 * b;
    };
    const contrast = (one, other) => {
        const [dark, light] = [luminance(one), luminance(other)].sort((a, b) => a - b);
        return (light + 0.05) / (dark + 0.05);
    };
    const faults = [];
    let count = 0;
    const look = (it, style, what) => {
        const ground = behind(it);
        const found = contrast(over(numbers(style.color), ground), ground);
        count += 1;
        if (found < 4.5) faults.push(`${found.toFixed(2)}: ${what}`);
    };
    for (const it of document.querySelectorAll('body *')) {
        if (!it.checkVisibility()) continue;
        const text = [...it.childNodes].filter((node) => node.nodeType === 3).map((node) => node.data).join('').trim() || it.value || '';
        if (text) look(it, getComputedStyle(it), `${it.tagName} ${text}`);
        if (it.placeholder) look(it, getComputedStyle(it, '::placeholder'), `placeholder ${it.placeholder}`);
    }
    return { faults: faults.slice(0, 8), count };
}

// Returns the versions that are drawn, and whose colour has no entry in the legend, or one with another name.
function notInLegend() {
    const entries = [...document.querySelectorAll('#legend li')].map((it) => [getComputedStyle(it.firstChild).backgroundColor, it.textContent]);
    const drawn = [...document.querySelectorAll('#flash .image')].flatMap((part) => [...part.querySelectorAll('.known')].map((it) => {
        const image = /^Image \d/.test(part.textContent) ? part.textContent.slice(0, 7).toLowerCase() : '';
        return [getComputedStyle(it).backgroundColor, image, it.textContent];
    }));
    const names = ([colour]) => entries.filter((it) => it[0] === colour).map((it) => it[1]);
    const isNamed = (it) => names(it).length === 1 && names(it)[0].startsWith(it[1]) && names(it)[0].endsWith(` ${it[2]}`);
    const kinds = ['erased', 'torn', 'trailers and log', 'changed'].filter((kind) => !entries.some((it) => it[1].startsWith(kind)));
    return { faults: [...drawn.filter((it) => !isNamed(it)).map(String), ...kinds], count: drawn.length };
}
