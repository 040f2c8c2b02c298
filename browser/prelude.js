// Gives a browser what it does not have, or has otherwise, for a page that Imagen saved or opened. It stands before the first script of the page.
(function () {
    "use strict";
    var LONGEST_WAIT = 2147483647;
    var own = document.currentScript, browserStart = window.setTimeout, browserStop = window.clearTimeout;
    // The live timers by their ids, of which all below `free` are live.
    var timers = [], free = 1, clock = 0, started = 0, waking = null;
    // The clock stands while the page loads, and from when it is moved up to the end of the browser's task.
    var begun = null, isHeld = true, isRunning = false, told = {move: move, firings: 0};

    // Makes a property that no for-in visits, as those of built-in objects are.
    function give(object, name, value) {
        Object.defineProperty(object, name, {value: value, writable: true, enumerable: false, configurable: true});
    }

    // The document has no node but those of `html`: without the doctype, the mark of a saved page and this script's own element.
    own.parentNode.removeChild(own);
    while (document.firstChild !== document.documentElement) {
        document.removeChild(document.firstChild);
    }

    // The functions of documents and elements, where a saved page looks for them.
    [[Document, "getElementById createElement createTextNode createComment createEvent"],
        [Element, "getAttribute hasAttribute setAttribute removeAttribute"]].forEach(function (row) {
        row[1].split(" ").forEach(function (name) { give(Node.prototype, name, row[0].prototype[name]); });
    });

    // What sends the browser to another page, or sets fields by itself, does nothing.
    ["submit", "reset", "click"].forEach(function (type) {
        window.addEventListener(type, function (event) {
            if (event.isTrusted && (type !== "click" || event.target.closest && event.target.closest("a[href], area[href]"))) {
                event.preventDefault();
            }
        }, true);
    });

    // Timers, under a clock of whole milliseconds. The one that is due first is taken, of several the one that was started first.
    function now() {
        return begun === null ? 0 : Math.round(performance.now() - begun);
    }
    function earlier(one, other) {
        return other.due < one.due || other.due === one.due && other.order < one.order ? other : one;
    }
    function first() {
        return timers.reduce(earlier, {due: Infinity});
    }
    function begin(timer, delay) {
        timer.due = clock + delay;
        timer.order = started++;
        timers[timer.id] = timer;
    }
    function clear(id) {
        id = Number(id);
        if (timers[id]) {
            delete timers[id];
            free = Math.min(free, id);
        }
    }
    // Asks the browser to be woken when the next timer is due.
    function wait() {
        var due = begun === null ? Infinity : first().due;
        browserStop.call(window, waking);
        if (due < Infinity) {
            waking = browserStart.call(window, run, Math.min(LONGEST_WAIT, Math.max(0, Math.ceil(begun + due - performance.now()))));
        }
    }
    function run() {
        var end = Math.max(clock, now()), timer;
        isRunning = true;
        for (timer = first(); timer.due <= end; timer = first()) {
            clock = Math.max(clock, timer.due);
            told.firings++;
            if (timer.period > 0) {
                begin(timer, timer.period);
            } else {
                clear(timer.id);
            }
            try {
                timer.call.call(window);
            } catch (error) {
                window.reportError(error);
            }
        }
        clock = end;
        isRunning = false;
        wait();
    }
    // Moves the clock to the present moment, and gives it. What is due until then is done first.
    function move() {
        if (!isRunning && begun !== null) {
            run();
            isHeld = true;
            browserStart.call(window, function () { isHeld = false; }, 0);
        }
        return clock;
    }
    function start(call, delay, period) {
        if (typeof call !== "function") {
            throw new TypeError("wrong argument");
        }
        while (timers[free]) {
            free++;
        }
        if (!isHeld && !isRunning) {
            clock = Math.max(clock, now());
        }
        begin({id: free, call: call, period: period}, Math.floor(Math.max(0, Number(delay) || 0)));
        if (!isRunning) {
            wait();
        }
        return free++;
    }
    function atLeastOne(period) {
        return Math.max(1, Math.floor(Number(period) || 0));
    }
    give(window, "setTimeout", function (call, delay) { return start(call, delay, 0); });
    give(window, "setInterval", function (call, period) { return start(call, atLeastOne(period), atLeastOne(period)); });
    give(window, "setIntervalFrom", function (call, delay, period) { return start(call, delay, atLeastOne(period)); });
    give(window, "clearTimeout", clear);
    give(window, "clearInterval", clear);
    give(window, "imagenClock", told);
    document.addEventListener("DOMContentLoaded", function () {
        begun = performance.now();
        isHeld = false;
        wait();
    });

    // The last lines at the lower end of the window, in a style sheet, so that the document has no node for them; alerts are lines then.
    function show() {
        var sheet = new CSSStyleSheet(), lines = [], log = console.log;
        function text(value) {
            var isObject = value !== null && /object|function/.test(typeof value);
            return isObject ? Object.prototype.toString.call(value) : String(value);
        }
        function put(kind, values) {
            lines = lines.concat(kind + " " + values.map(text).join(" ")).slice(-8);
            sheet.replaceSync("html::after{position:fixed;left:0;right:0;bottom:0;padding:.5em;border-top:1px solid;background:#eee;color:#000;" +
                "font:13px monospace;white-space:pre-wrap;pointer-events:none;content:\"" + lines.join("\n").replace(/["\\\n\r\f<]/g, function (unit) {
                return "\\" + unit.charCodeAt(0).toString(16) + " ";
            }) + "\"}");
        }
        document.adoptedStyleSheets = [sheet];
        give(console, "log", function () { put("log", [].slice.call(arguments)); log.apply(console, arguments); });
        give(window, "alert", function (value) { put("alert", [value]); });
        window.addEventListener("error", function (event) { put("uncaught", [event.error instanceof Error ? event.error.name + ": " + event.error.message : event.error]); });
    }
    if (own.hasAttribute("data-lines")) {
        show();
    }
})();
