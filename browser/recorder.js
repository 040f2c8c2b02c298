// Notes what a person does to a page, and gives it as an event file of Imagen. It stands before the first script of a page, or is run from the console.
(function () {
    "use strict";
    var MOST_ITEMS = 100000, LONGEST_TICK = 1000000000;
    // What the events of Imagen have, besides constants; what else a page asks an event for has no item.
    var KNOWN = /^([A-Z_]+|type|target|currentTarget|eventPhase|bubbles|cancelable|initEvent|stopPropagation|preventDefault|isTrusted)$/;
    var own = document.currentScript, isAtStart = document.readyState === "loading";
    var items = [], refused = [], types = [], noted = 0, firingsNoted = 0;
    var begun = isAtStart ? performance.now() : performance.getEntriesByType("navigation")[0].domInteractive;

    // The clock of prelude.js, where that is there, else the time that passes.
    function moment() {
        return window.imagenClock ? window.imagenClock.move() : Math.round(performance.now() - begun);
    }
    function refuse(why) {
        if (refused.indexOf(why) < 0) {
            refused.push(why);
            console.warn("not recorded: " + why);
        }
    }
    // Notes the time that passed since the last item, also no time in which timers fired, and then the item.
    function note(item) {
        var rest = moment() - noted, firings = window.imagenClock ? window.imagenClock.firings : 0, part;
        noted += rest;
        while (rest > 0 || firings !== firingsNoted) {
            part = Math.min(rest, LONGEST_TICK);
            rest -= part;
            firingsNoted = firings;
            items.push({"tick": part});
        }
        if (item) {
            items.push(item);
        }
        if (items.length > MOST_ITEMS) {
            refuse("what comes after " + MOST_ITEMS + " items");
        }
    }
    function isText(text) {
        try {
            return encodeURIComponent(text) !== "";
        } catch (error) {
            return false;
        }
    }
    // Why an event at a node has no item, or null.
    function fault(node, value) {
        if (node.nodeType !== 1) {
            return "it is no element";
        }
        if (!node.id) {
            return "the element has no id";
        }
        if (document.getElementById(node.id) !== node) {
            return "another element before it has its id, or it is not in the document";
        }
        return isText(node.id + " " + value) ? null : "half of a pair of units is no text";
    }
    // Refuses what the page asks the event for and no item has, as the code of a key.
    function watch(event, place) {
        function guard(name) {
            function ask() {
                delete event[name];
                refuse(place + ": the page asks for " + name + ", which no item has");
            }
            Object.defineProperty(event, name, {
                configurable: true,
                get: function () { ask(); return event[name]; },
                set: function (value) { ask(); event[name] = value; }
            });
        }
        for (var name in event) {
            if (!KNOWN.test(name)) {
                guard(name);
            }
        }
    }
    function fired(event, id) {
        var item = {"fire": event.type, "at": id};
        ["bubbles", "cancelable"].forEach(function (name) {
            if (!event[name]) {
                item[name] = false;
            }
        });
        return item;
    }
    // An event that the page dispatches by itself is not noted: its script does so again.
    function hear(event) {
        var node = event.target, isField = event.type === "input" && /^(INPUT|TEXTAREA)$/.test(node.tagName);
        var place = event.type + " at " + (node.id || node.nodeName || "window"), why;
        if (!event.isTrusted) {
            return;
        }
        why = fault(node, isField ? node.value : "");
        if (why) {
            refuse(place + ": " + why);
            return;
        }
        note(isField ? {"input": node.value, "at": node.id} : fired(event, node.id));
        watch(event, place);
    }
    function listen(type) {
        if (types.indexOf(type) < 0) {
            types.push(type);
            window.addEventListener(type, hear, true);
        }
    }
    function dispatch(node, type, bubbles, cancelable) {
        node.dispatchEvent(new Event(type, {bubbles: bubbles !== false, cancelable: cancelable !== false}));
    }
    function call(name) {
        var callee = window[name];
        try {
            if (!(name in window)) {
                throw new ReferenceError(name + " is not defined");
            }
            callee();
        } catch (error) {
            window.reportError(error);
        }
    }
    // Does what an item says, and notes it: so a page makes known that it is called from outside. Tells whether the element is there.
    function act(item) {
        var node = "at" in item ? document.getElementById(item.at) : document;
        if ("tick" in item) {
            throw new TypeError("time passes by itself");
        }
        note(item);
        if ("call" in item) {
            call(item.call);
        } else if (node && "fire" in item) {
            dispatch(node, item.fire, item.bubbles, item.cancelable);
        } else if (node && "input" in item) {
            if (/^(INPUT|TEXTAREA)$/.test(node.tagName)) {
                node.value = item.input;
            }
            dispatch(node, "input", true, false);
        }
        return node !== null;
    }
    // The event file up to now.
    function text() {
        note(null);
        return "[" + items.map(function (item) { return JSON.stringify(item); }).join(",\n ") + "]\n";
    }
    // Gives the event file to save.
    function save(name) {
        var link = document.createElement("a");
        link.href = URL.createObjectURL(new Blob([text()], {type: "application/json"}));
        link.download = name || "events.json";
        link.click();
        if (refused.length > 0) {
            console.warn("not recorded:\n" + refused.join("\n"));
        }
    }

    if (!isAtStart) {
        refuse("what was done before the recorder came");
    }
    ["click", "input", "change", "keydown", "submit"].forEach(listen);
    if (own) {
        (own.getAttribute("data-types") || "").split(" ").filter(Boolean).forEach(listen);
        own.parentNode.removeChild(own);
    }
    Object.defineProperty(window, "imagenRecorder", {
        value: {listen: listen, act: act, text: text, save: save, items: items, refused: refused}
    });
})();
