// Runs the validator, a module of WebAssembly with 64-bit memory. MODULE is that of out/module.js.
"use strict";

const Program = (() => {
    // What is written, as host.c numbers it.
    const JSON_ANSWER = 0;
    const DOCUMENT = 1;
    const LEAVES = 2;

    // What an input is, as host.c numbers it.
    const PLAIN = 0;
    const SPIRV = 1;
    const WGSL = 2;

    // How many bytes a run may take; of leaves, of which few bytes may have many, less.
    const MOST = 2n ** 33n;
    const mostOfLeaves = (input) => BigInt(2 ** 26 + 128 * input.length);

    // A module that has nothing but one page of 64-bit memory.
    const WIDE_MEMORY = Uint8Array.of(0, 97, 115, 109, 1, 0, 0, 0, 5, 3, 1, 4, 1);

    let compiled = null;
    let program = null;

    // The bytes of what is written in base 64.
    const decoded = (text) => Uint8Array.from(atob(text), (it) => it.charCodeAt(0));

    // Why no run is possible here, or nothing.
    function missing() {
        if (typeof MODULE === "undefined") return "The module is not there: ./build-page makes it.";
        if (typeof WebAssembly !== "object") return "This browser has no WebAssembly, by which the page judges, or it is switched off.";
        if (!WebAssembly.validate(WIDE_MEMORY)) {
            return "This browser's WebAssembly has no 64-bit memory (memory64), which the page needs. Chromium and Chrome have it from 133, Firefox from 134.";
        }
        return "";
    }

    // What the program writes on an input and its status, or why there is neither.
    async function run(input, form, kind) {
        try {
            compiled ??= await WebAssembly.compile(decoded(MODULE));
            program ??= (await WebAssembly.instantiate(compiled, {})).exports;
            const room = program.room(BigInt(input.length), form === LEAVES ? mostOfLeaves(input) : MOST);
            if (room === 0n) throw new Error("no memory");
            new Uint8Array(program.memory.buffer).set(input, Number(room));
            const status = program.judge(form, kind);
            if (status === 2) throw new Error("no memory");
            const found = new Uint8Array(program.memory.buffer, Number(program.text()), Number(program.text_length()));
            return { text: new TextDecoder().decode(found), status };
        } catch (error) {
            program = null;
            return { fault: String(error.message ?? error) };
        }
    }

    return { JSON_ANSWER, DOCUMENT, LEAVES, PLAIN, SPIRV, WGSL, decoded, missing, run };
})();
