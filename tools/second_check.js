#!/usr/bin/env node
// A second checker: judges a certificate or a certificate of refusal, and answers in the texts of `check` and `confirm`.
//
//     node tools/second_check.js check PROTOCOL SET CERT
//     node tools/second_check.js confirm PROTOCOL SET CERT
//
// It is written from docs/ANALYSIS.md, docs/ROWS.md and docs/FORMATS.md and shares no line with the program, so that a mistake would have to be made
// twice. It proves nothing. It is plain JavaScript without a library: Node.js runs it, and so does any browser as a script of a page,
// where `SecondCheck.judge(command, protocol, load)` gives the text and the status, and `load` the bytes of "set" and of "cert".
"use strict";

var SecondCheck = (function () {
    const PROTOCOLS = ["mpcp", "fmlp+", "dpcp", "dflp", "dpcp-w", "spin", "fmlp+-c", "spin-c", "dpcp-c", "dflp-c", "mpcp-c"];
    const AT_HOMES = ["dpcp", "dflp", "dpcp-w", "dpcp-c", "dflp-c"];
    const BY_CEILINGS = ["mpcp", "mpcp-c"];
    const MOST_BYTES = 67108864;
    const MOST_LEVELS = 127;
    const MOST_TICKS = 1000000000n;
    const BEYOND_64_BITS = 1n << 64n;
    const BEYOND_63_BITS = 1n << 63n;
    const DIRECT = 0, INDIRECT = 1, PREEMPTION = 2;

    // An answer other than the usual one; the status goes with its first word.
    class Answer extends Error {
        constructor(text) {
            super(text);
            this.status = text === "refused words" ? 2 : { refused: 3, fault: 4, invalid: 1 }[text.split(" ")[0]];
        }
    }

    // ---- the digest of bytes: SHA-256, as in FIPS 180-4 ----

    // The first 32 bits of what follows the point in the root of a prime, by whole numbers alone.
    function fraction_of_root(prime, degree) {
        const scaled = BigInt(prime) << BigInt(32 * degree);
        let low = 0n, high = 1n << 40n;
        while (high - low > 1n) {
            const middle = (low + high) >> 1n;
            if (middle ** BigInt(degree) <= scaled) low = middle; else high = middle;
        }
        return Number(low & 0xffffffffn) | 0;
    }

    function first_primes(count) {
        const primes = [];
        for (let n = 2; primes.length < count; n++) if (primes.every((prime) => n % prime !== 0)) primes.push(n);
        return primes;
    }

    const ROUND_CONSTANTS = first_primes(64).map((prime) => fraction_of_root(prime, 3));
    const FIRST_STATE = first_primes(8).map((prime) => fraction_of_root(prime, 2));

    function rotated(word, by) {
        return (word >>> by) | (word << (32 - by));
    }

    function padded(bytes) {
        const whole = new Uint8Array((((bytes.length + 8) >> 6) + 1) << 6);
        whole.set(bytes);
        whole[bytes.length] = 0x80;
        const view = new DataView(whole.buffer);
        view.setUint32(whole.length - 8, Math.floor(bytes.length / 0x20000000));
        view.setUint32(whole.length - 4, (bytes.length << 3) >>> 0);
        return view;
    }

    function fill_schedule(words, view, start) {
        for (let t = 0; t < 16; t++) words[t] = view.getInt32(start + 4 * t);
        for (let t = 16; t < 64; t++) {
            const near = words[t - 2], far = words[t - 15];
            const a = rotated(near, 17) ^ rotated(near, 19) ^ (near >>> 10);
            const b = rotated(far, 7) ^ rotated(far, 18) ^ (far >>> 3);
            words[t] = a + words[t - 7] + b + words[t - 16];
        }
    }

    function digest_of(bytes) {
        const view = padded(bytes), words = new Int32Array(64), state = Int32Array.from(FIRST_STATE);
        for (let start = 0; start < view.byteLength; start += 64) {
            fill_schedule(words, view, start);
            let [a, b, c, d, e, f, g, h] = state;
            for (let t = 0; t < 64; t++) {
                const one = (h + (rotated(e, 6) ^ rotated(e, 11) ^ rotated(e, 25)) + ((e & f) ^ (~e & g)) + ROUND_CONSTANTS[t] + words[t]) | 0;
                const two = ((rotated(a, 2) ^ rotated(a, 13) ^ rotated(a, 22)) + ((a & b) ^ (a & c) ^ (b & c))) | 0;
                [h, g, f, e, d, c, b, a] = [g, f, e, (d + one) | 0, c, b, a, (one + two) | 0];
            }
            [a, b, c, d, e, f, g, h].forEach((word, at) => { state[at] += word; });
        }
        return Array.from(state, (word) => (word >>> 0).toString(16).padStart(8, "0")).join("");
    }

    // ---- JSON: a whole number is a BigInt, another number is NaN, an object is a Map whose last members count ----

    class Reader {
        constructor(text) {
            this.text = text;
            this.at = 0;
        }

        fail() {
            throw new SyntaxError("no JSON");
        }

        // Passes what has the form, which stands here, and gives it.
        take(form) {
            form.lastIndex = this.at;
            const found = form.exec(this.text);
            if (!found) this.fail();
            this.at += found[0].length;
            return found[0];
        }

        // Passes white space, and gives the character behind it.
        next() {
            this.take(/[ \t\n\r]*/y);
            return this.text[this.at];
        }

        value(level) {
            const character = this.next();
            if ("{[".includes(character) && level === MOST_LEVELS) this.fail();
            if (character === "{") return this.object(level + 1);
            if (character === "[") return this.list(level + 1);
            if (character === '"') return this.string();
            if (/[a-z]/.test(character)) return { true: true, false: false, null: null }[this.take(/true|false|null/y)];
            return this.number();
        }

        number() {
            const found = this.take(/-?(?:0|[1-9][0-9]*)(?:\.[0-9]+)?(?:[eE][+-]?[0-9]+)?/y);
            if (/^[0-9]{1,20}$/.test(found) && BigInt(found) < BEYOND_64_BITS) return BigInt(found);
            if (!Number.isFinite(Number(found))) this.fail();
            return NaN;
        }

        string() {
            let whole = "";
            for (this.at++; ; whole += this.escaped()) {
                whole += this.take(/[^"\\\u0000-\u001f]*/y);
                if (this.take(/["\\]/y) === '"') return whole;
            }
        }

        // What stands behind a backslash; the two halves of a pair of surrogates come together or not at all.
        escaped() {
            const found = this.take(/["\\/bfnrt]|u(?:(?![dD][89a-fA-F])[0-9a-fA-F]{4}|[dD][89abAB][0-9a-fA-F]{2}\\u[dD][c-fC-F][0-9a-fA-F]{2})/y);
            if (found[0] !== "u") return '"\\/\b\f\n\r\t'['"\\/bfnrt'.indexOf(found)];
            return String.fromCharCode(...found.match(/[0-9a-fA-F]{4}/g).map((digits) => parseInt(digits, 16)));
        }

        // Passes items up to the closing bracket, each by the call.
        items(closing, item) {
            this.at++;
            for (let first = true; this.next() !== closing; first = false) {
                if (!first) this.take(/,/y);
                item();
            }
            this.at++;
        }

        list(level) {
            const items = [];
            this.items("]", () => items.push(this.value(level)));
            return items;
        }

        object(level) {
            const members = new Map();
            this.items("}", () => {
                if (this.next() !== '"') this.fail();
                const name = this.string();
                if (this.next() !== ":") this.fail();
                this.at++;
                members.set(name, this.value(level));
            });
            return members;
        }
    }

    // The text of bytes in UTF-8; of others the empty one, which is no JSON either.
    function decoded(bytes) {
        try {
            return new TextDecoder("utf-8", { fatal: true, ignoreBOM: true }).decode(bytes);
        } catch (error) {
            return "";
        }
    }

    function json_of(bytes, which) {
        try {
            const reader = new Reader(decoded(bytes)), value = reader.value(0);
            if (reader.next() !== undefined) reader.fail();
            return value;
        } catch (error) {
            if (error instanceof SyntaxError) throw new Answer(`refused ${which} notjson`);
            throw error;
        }
    }

    const whole = (value) => typeof value === "bigint";
    const text = (value) => typeof value === "string";
    const list = (value) => Array.isArray(value);
    const any = () => true;

    // Has the value these members, those with a question mark perhaps, each of its kind, and no other?
    function has_form(value, form) {
        if (!(value instanceof Map)) return false;
        const kinds = new Map(Object.entries(form).map(([name, kind]) => [name.replace("?", ""), kind]));
        const absent = (name) => !value.has(name) && `${name}?` in form;
        return [...value.keys()].every((name) => kinds.has(name)) && [...kinds].every(([name, kind]) => absent(name) || (value.has(name) && kind(value.get(name))));
    }

    // ---- the task set ----

    const SET_FORM = { processors: whole, tasks: list, "resources?": list };
    const RESOURCE_FORM = { name: text, "home?": whole };
    const TASK_FORM = { name: text, processor: whole, period: whole, cost: whole, "deadline?": whole, "local?": whole, "jitter?": whole, "requests?": list };
    const REQUEST_FORM = { resource: text, count: whole, length: whole };

    function refuse_set(reason) {
        throw new Answer(`refused set ${reason}`);
    }

    function check_set_form(root) {
        if (!has_form(root, SET_FORM)) refuse_set("shape root");
        (root.get("resources") || []).forEach((one, q) => has_form(one, RESOURCE_FORM) || refuse_set(`shape resource ${q + 1}`));
        root.get("tasks").forEach((one, x) => {
            if (!has_form(one, TASK_FORM)) refuse_set(`shape task ${x + 1}`);
            (one.get("requests") || []).forEach((entry, e) => has_form(entry, REQUEST_FORM) || refuse_set(`shape request ${x + 1} ${e + 1}`));
        });
    }

    function parts_of(root) {
        const or = (members, name, other) => (members.has(name) ? members.get(name) : other);
        return {
            processors: root.get("processors"),
            resources: or(root, "resources", []).map((one) => ({ name: one.get("name"), home: one.get("home") })),
            tasks: root.get("tasks").map((one) => ({
                name: one.get("name"),
                processor: one.get("processor"),
                period: one.get("period"),
                deadline: or(one, "deadline", one.get("period")),
                cost: one.get("cost"),
                local: or(one, "local", one.get("cost")),
                jitter: or(one, "jitter", 0n),
                entries: or(one, "requests", []).map((entry) => Object.fromEntries(entry)),
            })),
        };
    }

    const outside = (number, least, most) => number < least || number > most;

    // The conditions on a set, each over the whole set before the next: a reason, what it is about, and where it isn't met.
    function set_conditions({ processors, resources, tasks }) {
        const places = (kind, items) => items.map((item, at) => [`${kind} ${at + 1}`, item, at]);
        const all_resources = places("resource", resources), all_tasks = places("task", tasks);
        const entries = tasks.flatMap((task, x) => task.entries.map((entry, e) => [`request ${x + 1} ${e + 1}`, entry, e, task]));
        const twice = (among) => (one, at) => among.findIndex((other) => other.name === one.name) < at;
        const badly_named = (one) => !/^[A-Za-z0-9_.-]{1,32}$/.test(one.name);
        return [
            ["name", [...all_resources, ...all_tasks], badly_named],
            ["twicename", all_resources, twice(resources)],
            ["twicename", all_tasks, twice(tasks)],
            ["processor", all_tasks, (task) => outside(task.processor, 1n, processors)],
            ["period", all_tasks, (task) => outside(task.period, 1n, MOST_TICKS)],
            ["deadline", all_tasks, (task) => outside(task.deadline, 1n, task.period)],
            ["cost", all_tasks, (task) => outside(task.cost, 1n, task.deadline)],
            ["local", all_tasks, (task) => outside(task.local, 1n, task.cost)],
            ["resource", entries, (entry) => resources.every((one) => one.name !== entry.resource)],
            ["twicerequest", entries, (entry, e, task) => task.entries.findIndex((other) => other.resource === entry.resource) < e],
            ["count", entries, (entry) => outside(entry.count, 1n, 1000n)],
            ["length", entries, (entry, e, task) => outside(entry.length, 1n, task.cost - 1n)],
            ["home", all_resources, (one) => one.home !== undefined && outside(one.home, 1n, processors)],
            ["jitter", all_tasks, (task) => task.jitter > task.deadline - task.cost],
        ];
    }

    function check_sizes({ processors, resources, tasks }) {
        const entries = tasks.reduce((sum, task) => sum + task.entries.length, 0);
        if (tasks.length === 0) refuse_set("notask");
        if (outside(processors, 1n, 64n)) refuse_set("size processors");
        if (tasks.length > 64) refuse_set("size tasks");
        if (resources.length > 32) refuse_set("size resources");
        if (entries > 256) refuse_set("size requests");
    }

    // The set that the bytes write: of each task `count` and `length` by resource, 0 where it has no entry for it.
    function read_set(bytes, protocol) {
        const root = json_of(bytes, "set");
        check_set_form(root);
        const set = parts_of(root);
        check_sizes(set);
        for (const [reason, places, is_broken] of set_conditions(set)) {
            const found = places.find(([, ...item]) => is_broken(...item));
            if (found) refuse_set(`${reason} ${found[0]}`);
        }
        const homeless = set.resources.findIndex((one) => one.home === undefined);
        if (AT_HOMES.includes(protocol) && homeless >= 0) refuse_set(`nohome resource ${homeless + 1}`);
        for (const task of set.tasks) {
            const entry_of = (resource) => task.entries.find((entry) => entry.resource === resource.name);
            task.count = set.resources.map((resource) => (entry_of(resource) || { count: 0n }).count);
            task.length = set.resources.map((resource) => (entry_of(resource) || { length: 0n }).length);
        }
        return set;
    }

    // ---- certificates ----

    const is_digest = (value) => text(value) && /^[0-9a-f]{64}$/.test(value);
    const is_numerator = (value) => whole(value) && value < BEYOND_63_BITS;
    const is_den = (value) => is_numerator(value) && value >= 1n;
    const is_num = (value) => list(value) && value.every(is_numerator);
    const is_scaled = (value) => has_form(value, { den: is_den, num: is_num });
    const scaled_of = (value) => ({ den: value.get("den"), num: value.get("num") });

    function refuse_cert(reason) {
        throw new Answer(`refused cert ${reason}`);
    }

    function read_certificate(bytes, protocol) {
        const root = json_of(bytes, "cert");
        if (!(root instanceof Map) || !whole(root.get("version"))) refuse_cert("shape root");
        if (root.get("version") !== 2n) refuse_cert("version");
        const is_verdict = (value) => value === "schedulable";
        if (!has_form(root, { bounds: list, duals: list, protocol: text, set: is_digest, verdict: is_verdict, version: any })) refuse_cert("shape root");
        if (!root.get("bounds").every(whole)) refuse_cert("shape bounds");
        const bad = root.get("duals").findIndex((dual) => !is_scaled(dual));
        if (bad >= 0) refuse_cert(`shape dual ${bad + 1}`);
        if (root.get("protocol") !== protocol) refuse_cert("otherprotocol");
        return { digest: root.get("set"), bounds: root.get("bounds"), duals: root.get("duals").map(scaled_of) };
    }

    function read_refusal(bytes, protocol) {
        const root = json_of(bytes, "cert");
        const is_step = (value) => has_form(value, { task: whole, value: whole, point: is_scaled });
        const is_steps = (value) => list(value) && value.every(is_step);
        const form = { protocol: text, set: is_digest, steps: is_steps, verdict: (value) => value === "notshown", version: (value) => value === 1n };
        if (!has_form(root, form)) refuse_cert("shape");
        if (root.get("protocol") !== protocol) refuse_cert("otherprotocol");
        const step_of = (step) => ({ task: step.get("task"), value: step.get("value"), point: scaled_of(step.get("point")) });
        return { digest: root.get("set"), steps: root.get("steps").map(step_of) };
    }

    // ---- blocking programs ----

    const quotient_up = (number, by) => (number + by - 1n) / by;
    const sum_of = (items, number) => items.reduce((sum, item) => sum + number(item), 0n);
    const lesser = (one, other) => (one < other ? one : other);
    const most_of = (items, number) => items.map(number).reduce((most, one) => (one > most ? one : most), 0n);

    // What the columns and rows of task i's program ask of the set. Tasks and resources go by their places, from 0; a lower place is higher.
    class View {
        constructor(set, protocol, i) {
            Object.assign(this, { set, protocol, i, me: set.tasks[i], bounds: [], waits: new Map(), spun: new Map() });
            this.is_spinning = protocol.startsWith("spin");
            this.all = set.tasks.map((_, x) => x);
            this.resources = set.resources.map((_, q) => q);
            this.own = this.resources.filter((q) => this.uses(i, q));
        }

        uses(x, q) { return this.set.tasks[x].count[q] > 0n; }
        home(q) { return Number(this.set.resources[q].home); }
        processor(x) { return Number(this.set.tasks[x].processor); }
        is_local(x) { return this.processor(x) === this.processor(this.i); }
        beside(x) { return this.all.filter((y) => y !== x && y !== this.i && this.processor(y) === this.processor(x)); }
        ceiling(q) { return this.all.find((x) => this.uses(x, q)); }
        own_at(k) { return this.own.filter((q) => this.home(q) === k); }
        own_away() { return this.own.filter((q) => this.home(q) !== this.processor(this.i)); }
        own_requests(among) { return sum_of(among, (q) => this.me.count[q]); }

        // The highest user of q that isn't on processor k, or where there is none the highest one.
        seen_ceiling(q, k) {
            const remote = this.all.find((x) => this.uses(x, q) && this.processor(x) !== k);
            return remote === undefined ? this.ceiling(q) : remote;
        }

        // How many jobs of x run in so many ticks that begin with i's release, or with the issue of a request of i.
        jobs(x, ticks = this.bounds[this.i]) {
            const task = this.set.tasks[x];
            return quotient_up(ticks + this.bounds[x] + task.jitter, task.period);
        }

        requests(x, q) { return this.set.tasks[x].count[q] * this.jobs(x); }

        has_path(x, q) {
            const others = this.beside(x);
            const is_high = (r) => !BY_CEILINGS.includes(this.protocol) || this.is_as_high(x, q, r);
            return this.own.some((r) => r !== q && is_high(r) && others.some((y) => this.uses(y, r)));
        }

        // Whether q's ceiling, as x's processor sees it, is no lower than r's.
        is_as_high(x, q, r) {
            const k = this.processor(x);
            return this.seen_ceiling(q, k) <= this.seen_ceiling(r, k);
        }

        // Whether requests of q by x may block a job of i directly, indirectly, and by preemption.
        ways(x, q) {
            const requested = this.uses(this.i, q), is_lower = x > this.i;
            if (AT_HOMES.includes(this.protocol)) {
                const is_barred = !["dflp", "dflp-c"].includes(this.protocol) && is_lower && this.ceiling(q) > this.i;
                return [requested, !is_barred && this.own_at(this.home(q)).some((r) => r !== q), this.home(q) === this.processor(this.i)];
            }
            if (this.is_local(x) && (!is_lower || this.is_spinning)) return [false, false, is_lower];
            if (this.is_spinning) return [requested, this.beside(this.i).some((y) => this.uses(y, q)), false];
            return [requested, this.has_path(x, q), this.is_local(x)];
        }

        columns() {
            const found = [];
            for (const x of this.all) {
                for (const q of this.resources) {
                    if (x === this.i || !this.uses(x, q)) continue;
                    this.ways(x, q).forEach((is_there, way) => is_there && found.push({ x, q, way, cost: this.set.tasks[x].length[q] }));
                }
            }
            return found;
        }

        // How often other tasks of x's processor can hold r while i waits for it, or spin for it while i is there.
        holds(x, r, by_lower) { return this.hold(this.beside(x), this.beside(x), r, by_lower); }

        // How often these tasks can: the higher ones of the first, and the lower ones of the second.
        hold(higher, lower, r, by_lower) {
            const some = lower.some((y) => y > this.i && this.uses(y, r));
            return sum_of(higher.filter((y) => y < this.i), (y) => this.requests(y, r)) + (some ? by_lower : 0n);
        }

        // How often other tasks of x's processor can hold what is shared out while i waits for it, of what x may run one of these before.
        shared_holds(x, requests) {
            const others = this.beside(x), higher = others.filter((y) => y < this.i), lower = this.is_local(x) ? [] : others;
            const held = this.shared_out().filter((r) => requests.some((q) => q !== r && this.is_as_high(x, q, r)));
            return sum_of(held, (r) => sum_of(higher, (y) => this.waited_for(y, r)) + this.hold([], lower, r, this.me.count[r]));
        }

        // How many requests of q by y run while i waits for q: no more than while its job is there, or than within the windows of its requests.
        waited_for(y, q) {
            if (!this.waits.has(q)) this.waits.set(q, this.wait(q));
            return lesser(this.requests(y, q), this.me.count[q] * this.set.tasks[y].count[q] * this.jobs(y, this.waits.get(q)));
        }

        // For how many ticks a request of q by i can wait under MPCP; where that passes the deadline, i's bound in place of it.
        wait(q) {
            const higher = this.all.filter((y) => y < this.i && this.uses(y, q)), runners = this.runners(q, higher), lower = this.lower_hold(q);
            const requests = (y, ticks) => this.set.tasks[y].count[q] * this.jobs(y, ticks);
            for (let waited = 1n; waited <= this.me.deadline;) {
                const own = sum_of(higher, (y) => requests(y, waited) * this.set.tasks[y].length[q]);
                const others = sum_of(runners, ({ x, holders, longest, all }) =>
                    lesser(sum_of(holders, (y) => requests(y, waited)) * longest, this.jobs(x, waited) * all));
                if (lower + own + others <= waited) return waited;
                waited = lower + own + others;
            }
            return this.bounds[this.i];
        }

        // Of which resources a request of x may run while another task of its processor holds q; and the longest such request.
        overtaking(x, q) { return this.resources.filter((r) => r !== q && this.uses(x, r) && this.is_as_high(x, r, q)); }

        longest_overtaking(x, q) { return most_of(this.overtaking(x, q), (r) => this.set.tasks[x].length[r]); }

        // For how many ticks one lower task, of another processor, can hold q. Of each task beside it one request may run meanwhile.
        lower_hold(q) {
            const lower = this.all.filter((y) => y > this.i && this.uses(y, q) && !this.is_local(y));
            return most_of(lower, (y) => this.set.tasks[y].length[q] + sum_of(this.beside(y), (x) => this.longest_overtaking(x, q)));
        }

        // Who may run requests in place of which of these holders of q, for how many ticks each, and for how many all that a job makes.
        runners(q, higher) {
            const others = this.all.filter((x) => x !== this.i).map((x) => ({ x, holders: higher.filter((y) => y !== x && this.processor(y) === this.processor(x)) }));
            const all_of = (x) => sum_of(this.overtaking(x, q), (r) => this.set.tasks[x].count[r] * this.set.tasks[x].length[r]);
            return others.filter(({ holders }) => holders.length).map((one) => ({ ...one, longest: this.longest_overtaking(one.x, q), all: all_of(one.x) }));
        }

        // From here on limits are those at these bounds.
        set_bounds(bounds) { Object.assign(this, { bounds, waits: new Map() }); }

        // How many requests of x can run while i waits for what x's processor holds: one for each of i, and one for each holding elsewhere.
        runs_beside(x) {
            const there = this.all.filter((y) => y !== this.i && this.processor(y) === this.processor(x));
            const away = this.all.filter((y) => this.processor(y) !== this.processor(x)), lower = away.filter((y) => !this.is_local(y));
            const held = this.shared_out().filter((r) => there.some((y) => this.uses(y, r)));
            return sum_of(held, (r) => this.me.count[r] + this.hold(away, lower, r, this.me.count[r]));
        }

        // For how many ticks a request of q by i can be open; where that passes the deadline, i's bound in place of it.
        window(q) {
            const at_home = this.resources.filter((r) => this.home(r) === this.home(q));
            const barring = at_home.filter((r) => this.ceiling(r) <= this.i);
            const lengths = this.all.filter((x) => x > this.i).flatMap((x) => barring.map((r) => this.set.tasks[x].length[r]));
            const alone = this.me.length[q] + most_of(lengths, (length) => length);
            const ticks = this.set.tasks.map((task) => sum_of(at_home, (r) => task.count[r] * task.length[r]));
            const higher = this.all.filter((x) => x < this.i && ticks[x] > 0n);
            for (let open = 1n; open <= this.me.deadline;) {
                const needed = alone + sum_of(higher, (x) => this.jobs(x, open) * ticks[x]);
                if (needed <= open) return open;
                open = needed;
            }
            return this.bounds[this.i];
        }

        met(x, q) {
            return sum_of(this.own_at(this.home(q)), (r) => this.me.count[r] * this.set.tasks[x].count[q] * this.jobs(x, this.window(r)));
        }

        // Whether a task of another processor than x's uses q; and those of i's resources of which that is so for i.
        is_shared_out(x, q) { return this.all.some((y) => this.uses(y, q) && this.processor(y) !== this.processor(x)); }
        shared_out() { return this.own.filter((q) => this.is_shared_out(this.i, q)); }

        // For which resources lower tasks of i's processor may spin while a task of processor k holds them: all of these, those that i or a
        // higher task there uses, and the lone ones, which no such task uses.
        groups(k) {
            if (!this.spun.has(k)) {
                const lower = this.beside(this.i).filter((y) => y > this.i), there = this.all.filter((x) => this.processor(x) === k);
                const upper = this.all.filter((x) => x <= this.i && this.is_local(x)), is_used = (q, among) => among.some((x) => this.uses(x, q));
                const below = k === this.processor(this.i) ? [] : this.resources.filter((q) => is_used(q, lower) && is_used(q, there));
                this.spun.set(k, { below, above: below.filter((q) => is_used(q, upper)), lone: below.filter((q) => !is_used(q, upper)) });
            }
            return this.spun.get(k);
        }

        is_left_out(k, q) { const { below, lone } = this.groups(k); return lone.length > 1 && lone.includes(q) && below.length > MANY; }
        spins_above(among) { return sum_of(among, (q) => this.me.count[q] + this.holds(this.i, q, 0n)); }

        // The sets of resources of k that have a row together, each with whom it is for: all; all but one; the lone ones with another one; the lone ones.
        all_spun(k) { const { below, above } = this.groups(k); return above.length > 0 ? [[below, k]] : []; }
        but_one(k) {
            const { below, above } = this.groups(k), is_above_apart = above.length > 1 && above.length <= MANY, is_lone_apart = below.length <= MANY;
            const apart = below.filter((q) => (above.includes(q) ? is_above_apart : is_lone_apart));
            return apart.map((q) => [below.filter((r) => r !== q), k, q]);
        }
        lone_with_one(k) { const { above, lone } = this.groups(k); return above.length > 2 ? above.map((q) => [[q, ...lone], k, q]) : []; }
        all_lone(k) { return [[this.groups(k).lone, k]]; }

        spun_together(rows, q) { return 1n + this.spins_above(rows.find((row) => row[2] === q)[0]); }

        // Which of these rows, of each processor some, a column of that processor or of a lower request stands in.
        together(column, rows) {
            const is_in = ([among, k]) => (is_open(column) ? this.processor(column.x) === k && among.includes(column.q) : !among.includes(column.q));
            return this.processors().flatMap(rows).filter((row) => row[0].length > 1 && is_in(row)).map(([, ...whom]) => whom);
        }

        processors() { return [...new Set(this.set.tasks.map((task) => Number(task.processor)))]; }

        // How many requests of i, of these resources, one of these tasks may hold up.
        held_up(among, holders) { return this.own_requests(among.filter((q) => holders.some((y) => this.uses(y, q)))); }
    }

    const is_open = (column) => column.way !== PREEMPTION;
    // If lower tasks may spin for more resources, "spin-c" has no row that leaves out just a lone one, and several lone ones have no row of closer
    // spinning each. If more of these are used above, it has no row that leaves out just one of those.
    const MANY = 10;

    // Each kind of row: which row a column stands in, if any, or which ones, how often where that isn't once, and the limit of that row.
    const KINDS = {
        requests: { row: (view, { x, q }) => [x, q], limit: (view, x, q) => view.requests(x, q) },
        time: { row: (view, { x }) => [x], times: (column) => column.cost, limit: (view, x) => view.set.tasks[x].cost * view.jobs(x) },
        intervals: { row: (view, { x, way }) => way === PREEMPTION && x > view.i && view.is_local(x) && [x], limit: (view) => 1n + view.own_requests(view.own) },
        turns: { row: (view, { x, q, way }) => way === DIRECT && [x, q], limit: (view, x, q) => view.me.count[q] },
        queues: { row: (view, column) => is_open(column) && [column.x], limit: (view) => view.own_requests(view.own) },
        lower_holders: { row: (view, { x, q, way }) => way === DIRECT && x > view.i && [q], limit: (view, q) => view.me.count[q] },
        holdings: { row: (view, { x, way }) => way === INDIRECT && [x], limit: (view, x) => sum_of(view.own, (r) => view.holds(x, r, view.me.count[r])) },
        homes: { row: (view, column) => is_open(column) && column.x > view.i && [view.home(column.q)], limit: (view, k) => view.own_requests(view.own_at(k)) },
        home_queues: { row: (view, column) => is_open(column) && [column.x, view.home(column.q)], limit: (view, x, k) => view.own_requests(view.own_at(k)) },
        windows: { row: (view, column) => is_open(column) && column.x < view.i && [column.x, column.q], limit: (view, x, q) => lesser(view.requests(x, q), view.met(x, q)) },
        lower_requests: { row: (view, column) => !is_open(column) && [0], limit: () => 1n },
        spinning: { row: (view, column) => is_open(column) && [view.processor(column.x), column.q], limit: (view, k, q) => view.me.count[q] + view.holds(view.i, q, 1n) },
        own_spinning: { row: (view, { x, q, way }) => way === DIRECT && [view.processor(x), q], limit: (view, k, q) => view.me.count[q] },
        holders: { row: (view, column) => is_open(column) && [column.x], limit: (view, x) => view.held_up(view.shared_out(), [x, ...view.beside(x)]) },
        other_holders: {
            row: (view, { x, q, way }) => way === INDIRECT && [x, q],
            limit: (view, x, q) => view.held_up(view.shared_out().filter((r) => r !== q), view.beside(x)),
        },
        lower_tasks: { row: (view, { x }) => x > view.i && view.is_local(x) && [x], limit: (view) => 1n + view.own_requests(view.shared_out()) },
        local_preemption: { row: (view, column) => !is_open(column) && !view.is_shared_out(view.i, column.q) && [0], limit: (view) => 1n + view.own_requests(view.shared_out()) },
        local_waits: { row: (view, { q, way }) => way === DIRECT && !view.is_shared_out(view.i, q) && [0], limit: () => 0n },
        closer_spinning: {
            rows: (view, column) => (is_open(column) ? [[view.processor(column.x), column.q]]
                : view.processors().flatMap((k) => view.groups(k).below.filter((q) => q !== column.q).map((q) => [k, q]))).filter(([k, q]) => !view.is_left_out(k, q)),
            limit: (view, k, q) => view.me.count[q] + view.holds(view.i, q, 1n),
        },
        lower_spinning: { rows: (view, column) => view.together(column, (k) => view.all_spun(k)), limit: (view, k) => view.spun_together(view.all_spun(k)) },
        other_lower_spinning: { rows: (view, column) => view.together(column, (k) => view.but_one(k)), limit: (view, k, q) => view.spun_together(view.but_one(k), q) },
        lone_lower_spinning_with: {
            rows: (view, column) => view.together(column, (k) => view.lone_with_one(k)),
            limit: (view, k, q) => view.spun_together(view.lone_with_one(k), q),
        },
        lone_lower_spinning: { rows: (view, column) => view.together(column, (k) => view.all_lone(k)), limit: (view, k) => view.spun_together(view.all_lone(k)) },
        shared_holdings: { row: (view, { x, way }) => way === INDIRECT && [x], limit: (view, x) => view.shared_holds(x, view.resources.filter((q) => view.uses(x, q))) },
        holdings_by_resource: { row: (view, { x, q, way }) => way === INDIRECT && [x, q], limit: (view, x, q) => view.shared_holds(x, [q]) },
        away_holdings: { row: (view, column) => is_open(column) && [column.x], limit: (view, x) => view.runs_beside(x) },
        shared_intervals: {
            row: (view, { x, way }) => way === PREEMPTION && x > view.i && view.is_local(x) && [x],
            limit: (view) => 1n + view.own_requests(view.shared_out()),
        },
        lower_waits: { row: (view, { x, way }) => way === DIRECT && x > view.i && view.is_local(x) && [0], limit: () => 0n },
        direct_waits: { row: (view, { x, q, way }) => way === DIRECT && x < view.i && [x, q], limit: (view, x, q) => view.waited_for(x, q) },
        local_runners: { row: (view, { x, q, way }) => way === INDIRECT && !view.is_shared_out(x, q) && [0], limit: () => 0n },
        home_tasks: {
            row: (view, column) => is_open(column) && view.processor(column.x) === view.home(column.q) && [view.home(column.q)],
            limit: (view, k) => (k === view.processor(view.i) ? 0n : view.own_requests(view.own_at(k))),
        },
        lower_home_tasks: { row: (view, { x }) => x > view.i && view.is_local(x) && [x], limit: (view) => 1n + view.own_requests(view.own_away()) },
        lower_preemption: { row: (view, { x, way }) => way === PREEMPTION && x > view.i && view.is_local(x) && [0], limit: (view) => 1n + view.own_requests(view.own_away()) },
        lower_home_waits: { row: (view, column) => is_open(column) && column.x > view.i && view.home(column.q) === view.processor(view.i) && [0], limit: () => 0n },
    };

    const KINDS_OF = {
        mpcp: ["requests", "time", "intervals", "lower_holders", "holdings"],
        "fmlp+": ["requests", "time", "intervals", "turns", "queues"],
        dpcp: ["requests", "time", "intervals", "homes"],
        dflp: ["requests", "time", "intervals", "turns", "home_queues"],
        "dpcp-w": ["requests", "time", "intervals", "homes", "windows"],
        spin: ["requests", "time", "lower_requests", "spinning", "own_spinning"],
    };
    KINDS_OF["fmlp+-c"] = [...KINDS_OF["fmlp+"], "holders", "other_holders", "lower_tasks", "local_preemption", "local_waits", "local_runners"];
    KINDS_OF["spin-c"] = ["requests", "time", "lower_requests", "own_spinning", "lower_spinning", "other_lower_spinning", "lone_lower_spinning_with"];
    KINDS_OF["spin-c"].push("lone_lower_spinning", "closer_spinning");
    KINDS_OF["dpcp-c"] = [...KINDS_OF["dpcp-w"], "home_tasks", "lower_home_tasks", "lower_preemption", "lower_home_waits"];
    KINDS_OF["dflp-c"] = [...KINDS_OF.dflp, "home_tasks", "lower_home_tasks", "lower_preemption"];
    KINDS_OF["mpcp-c"] = ["requests", "time", "lower_holders", "shared_holdings", "holdings_by_resource", "away_holdings", "shared_intervals"];
    KINDS_OF["mpcp-c"].push("local_preemption", "lower_waits", "direct_waits");

    // The rows of a kind, in rising order of whom each is for: its cells, each a column and how often that counts, and its limit.
    function rows_of(view, columns, { row, rows, times, limit }) {
        const found = new Map();
        columns.forEach((column, at) => {
            for (const whom of rows ? rows(view, column) : [row(view, column)].filter(Boolean)) {
                if (!found.has(`${whom}`)) found.set(`${whom}`, { whom, cells: [], limit: () => limit(view, ...whom) });
                found.get(`${whom}`).cells.push([at, times ? times(column) : 1n]);
            }
        });
        return [...found.values()].sort(({ whom: [a, b = 0] }, { whom: [c, d = 0] }) => a - c || b - d);
    }

    // Task i's program. Its limits are those at the bounds that `view` has when they are asked for.
    function program_of(set, protocol, i) {
        const view = new View(set, protocol, i), columns = view.columns();
        return { view, columns, rows: KINDS_OF[protocol].flatMap((kind) => rows_of(view, columns, KINDS[kind])) };
    }

    // The ticks that jobs of higher local tasks take in a window of i.
    function interference(set, protocol, i, bounds) {
        const higher = set.tasks.map((task, h) => ({ task, h })).filter(({ task, h }) => h < i && task.processor === set.tasks[i].processor);
        return sum_of(higher, ({ task, h }) => {
            const ticks = AT_HOMES.includes(protocol) ? task.local : task.cost;
            return quotient_up(bounds[i] + bounds[h] + task.jitter - ticks, task.period) * ticks;
        });
    }

    // ---- judging ----

    function refute_certificate(reason) {
        throw new Answer(`invalid ${reason}`);
    }

    // The first column that the dual doesn't cover, from 0, or -1.
    function uncovered(program, dual) {
        const covered = program.columns.map(() => 0n);
        program.rows.forEach((row, r) => row.cells.forEach(([at, times]) => { covered[at] += times * dual.num[r]; }));
        return program.columns.findIndex((column, at) => covered[at] < dual.den * column.cost);
    }

    // Each test is tried over all tasks before the next.
    function check(set, protocol, { bounds, duals }) {
        const tasks = set.tasks.map((task, i) => ({ ...task, i, bound: bounds[i], dual: duals[i] }));
        if (bounds.length !== tasks.length || duals.length !== tasks.length) refute_certificate("size");
        for (const task of tasks) if (task.bound + task.jitter > task.deadline) refute_certificate(`bound ${task.name}`);
        for (const task of tasks) {
            task.program = program_of(set, protocol, task.i);
            if (task.dual.num.length !== task.program.rows.length) refute_certificate(`dualsize ${task.name}`);
        }
        for (const task of tasks) {
            const column = uncovered(task.program, task.dual);
            if (column >= 0) refute_certificate(`cover ${task.name} ${column + 1}`);
        }
        for (const task of tasks) {
            task.program.view.set_bounds(bounds);
            const value = task.program.rows.reduce((sum, row, r) => sum + row.limit() * task.dual.num[r], 0n) / task.dual.den;
            if (task.cost + value + interference(set, protocol, task.i, bounds) > task.bound) refute_certificate(`small ${task.name}`);
        }
        return "valid";
    }

    function check_step(set, protocol, program, i, bounds, step, fail) {
        const { den, num } = step.point, { view, columns, rows } = program;
        view.set_bounds(bounds);
        if (step.value <= bounds[i]) fail("rising");
        if (num.length !== columns.length) fail("size");
        const broken = rows.findIndex((row) => sum_of(row.cells, ([at, times]) => times * num[at]) > den * row.limit());
        if (broken >= 0) fail(`row ${broken + 1}`);
        const worth = columns.reduce((sum, column, at) => sum + column.cost * num[at], 0n) / den;
        if (set.tasks[i].cost + worth + interference(set, protocol, i, bounds) < step.value) fail("low");
    }

    // The bounds begin with the costs, and a step that holds puts its value in.
    function confirm(set, protocol, { steps }) {
        const bounds = set.tasks.map((task) => task.cost), programs = [];
        let is_past = false;
        steps.forEach((step, at) => {
            const fail = (reason) => refute_certificate(`step ${at + 1} ${reason}`);
            if (is_past) fail("after");
            if (outside(step.task, 1n, BigInt(set.tasks.length))) fail("task");
            const i = Number(step.task) - 1, task = set.tasks[i];
            programs[i] = programs[i] || program_of(set, protocol, i);
            check_step(set, protocol, programs[i], i, bounds, step, fail);
            bounds[i] = step.value;
            is_past = step.value + task.jitter > task.deadline;
        });
        if (!is_past) refute_certificate("open");
        return "confirmed";
    }

    const COMMANDS = { check: [read_certificate, check], confirm: [read_refusal, confirm] };
    const are_words = (command, protocol) => Object.keys(COMMANDS).includes(command) && PROTOCOLS.includes(protocol);

    // The answer to a command: its text, which ends with a line end, and its status. `load` gives the bytes of "set" and of "cert".
    function judge(command, protocol, load) {
        const sized = (which, bytes) => {
            if (bytes.length > MOST_BYTES) throw new Answer(`refused ${which} toolong`);
            return bytes;
        };
        try {
            if (!are_words(command, protocol)) throw new Answer("refused words");
            const [read, judged] = COMMANDS[command];
            const bytes = sized("set", load("set")), set = read_set(bytes, protocol);
            const certificate = read(sized("cert", load("cert")), protocol);
            if (certificate.digest !== digest_of(bytes)) refute_certificate("otherset");
            return { text: judged(set, protocol, certificate) + "\n", status: 0 };
        } catch (error) {
            if (!(error instanceof Answer)) throw error;
            return { text: error.message + "\n", status: error.status };
        }
    }

    // The same over files.
    function judge_files(files, words) {
        const [command, protocol, set, cert] = words.length === 4 ? words : [];
        return judge(command, protocol, (which) => {
            try {
                return files.readFileSync(which === "set" ? set : cert);
            } catch (error) {
                throw new Answer(error.code === "ENOENT" ? `refused ${which} absent` : `fault read ${which}`);
            }
        });
    }

    return { judge, judge_files, digest_of };
})();

if (typeof module !== "undefined" && typeof require !== "undefined") {
    module.exports = SecondCheck;
    if (require.main === module) {
        const { text, status } = SecondCheck.judge_files(require("fs"), process.argv.slice(2));
        process.stdout.write(text);
        process.exitCode = status;
    }
}
