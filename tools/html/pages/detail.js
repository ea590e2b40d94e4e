// One record: the packet as it came and left, its way verdict by verdict, its connection.

const LADDER = 80;

// Shows a record, and lists all where it isn't listed; `keepsHash` where the address names it already. Answers whether
// there is such a record.
function show(record, keepsHash) {
	if (!(record >= 0 && record < count)) return false;
	if (!shown.includes(record)) everything();
	chosen = record;
	const page = Math.floor(shown.indexOf(record) / PAGE) * PAGE;
	if (page !== from) {
		from = page;
		list();
	}
	markRow(record);
	markWay(record);
	at("detail").replaceChildren(...detail(record));
	at("records").classList.add("has-detail");
	if (!keepsHash) history.replaceState(null, "", `#record=${record + 1}`);
	return true;
}

function markRow(record) {
	const box = at("list");
	for (const element of box.children) {
		const isIt = Number(element.dataset.record) === record;
		element.setAttribute("aria-selected", String(isIt));
		if (!isIt) continue;
		// the list alone is moved, not the page
		const top = element.offsetTop - box.offsetTop, bottom = top + element.offsetHeight;
		if (top < box.scrollTop) box.scrollTop = top;
		else if (bottom > box.scrollTop + box.clientHeight) box.scrollTop = bottom - box.clientHeight;
	}
}

function markWay(record) {
	document.querySelectorAll(".line.chosen").forEach(one => one.classList.remove("chosen"));
	for (const [, chain, rule] of steps(record)) {
		const found = rule ? (ruleOf(chain, rule) || [])[2] : chainOf(chain)[4];
		const line = at(`L${found}`);
		if (line) line.classList.add("chosen");
	}
}

function detail(record) {
	const head = make("h3", "", null, make("span", "", `Record ${number(record + 1)}`),
		make("span", outcomeClass(record), outcomeWord(record)));
	head.dataset.record = record + 1;
	head.tabIndex = -1;
	return [head, make("p", "when", `${time(record)} s, ${clock(record)}`), ...changeNotes(record), packetList(record),
		way(record), ...ladder(record)];
}

function changeNotes(record) {
	const groups = data.groups.filter(group => group[4].includes(record + 1));
	return groups.map(group => make("div", `changenote ${group[1].split(" ")[0]}`, null,
		make("b", "", group[1]), make("div", "", `old: ${group[2]}`), make("div", "", `new: ${group[3]}`)));
}

function packetList(record) {
	const list = make("dl", "packet"), isIp = columns.ttl[record] >= 0;
	const add = (name, ...parts) => list.append(make("dt", "", name), ...parts);
	const entered = [`by ${interfaceName(columns.entering[record])}`, isIp && `TTL ${columns.ttl[record]}`,
		`${plural(columns.length[record], "byte")}`, flagsText(record)].filter(Boolean).join(" · ");
	const captured = data.captured[record + 1];
	if (captured) add("captured", make("dd", "meta", `${captured}; replayed to the end that this ruleset chose`));
	add("came", make("dd", "", null, make("div", "before", before(record)), make("div", "meta", entered)));
	if (columns.after[record]) {
		const left = [`by ${interfaceName(columns.leaving[record])}`, `TTL ${columns.ttl_after[record]}`].join(" · ");
		add("left", make("dd", "", null, afterWords(record), make("div", "meta", left)));
		const changes = translations(record);
		if (changes.length) add("NAT", make("dd", "nat", changes.map(([, text]) => text).join("; ")));
	}
	return list;
}

function afterWords(record) {
	const one = parts(before(record)), other = parts(after(record));
	const line = make("div", "after");
	if (!one || !other) {
		line.textContent = after(record);
		return line;
	}
	const piece = (text, old) => make("span", text === old ? "" : "changed", text);
	line.append(`${other.kind} `, piece(other.source, one.source), " > ", piece(other.target, one.target));
	if (other.rest) line.append(" ", piece(other.rest, one.rest));
	return line;
}

// The way

// Hook by hook; what isn't a rule's stands where it happens
function way(record) {
	const all = steps(record), items = make("ol", "steps");
	let events = happenings(record, all), hook = "";
	const heading = name => {
		if (name !== hook) items.append(make("li", "hook", name));
		hook = name;
	};
	const tell = test => {
		for (const event of events.filter(test)) {
			heading(event.hook);
			items.append(make("li", `event ${event.kind}`, event.text));
		}
		events = events.filter(event => !test(event));
	};
	for (const step of all) {
		const [base] = step, [, name, type, priority, , early] = chainOf(base);
		const rank = HOOKS.indexOf(name);
		// the steps of translation come before filter chains of their own priority
		const limit = type === "nat" ? (name === "prerouting" ? -100 : 100) : early ? -1e9 : priority + 0.5;
		tell(event => HOOKS.indexOf(event.hook) < rank || event.hook === name && event.at < limit);
		heading(name || "prerouting");
		items.append(stepItem(step));
	}
	tell(() => true);
	items.append(make("li", goes(record) ? "end" : "end stop", endText(record)));
	return items;
}

function endText(record) {
	return {
		passed: `left by ${interfaceName(columns.leaving[record])}`, local: "delivered to the box",
		[UNSENT]: "not sent: what began its connection didn't go through",
		[COPY]: "a packet as the box sent it, seen a second time: dropped for link",
	}[outcome(record)] || `dropped for ${outcome(record)}`;
}

function happenings(record, all) {
	if ([UNSENT, COPY].includes(outcome(record))) return [];
	const events = [], add = (hook, at, text, kind = "") => events.push({ hook, at, text, kind });
	const hooks = new Set(all.map(step => chainOf(step[0])[1]));
	if (stateOf(record)) add("prerouting", -200, `connection looked for: ct state ${stateOf(record)}`);
	for (const [what, text] of translations(record)) {
		if (what === "target") add("prerouting", -100, text, "nat");
		else add("postrouting", 100, text, "nat");
	}
	const routed = routing(record, hooks);
	if (routed) add(...routed);
	return events;
}

// Where a record was routed, as [hook, place in it, text]
function routing(record, hooks) {
	const end = outcome(record), first = -1e9;
	if (end === "local" || hooks.has("input")) return ["input", first, "routed: for the box itself"];
	if (end === "route") return ["forward", first, "routed: nowhere"];
	const isOn = goes(record) || hooks.has("forward") || hooks.has("postrouting") || end === "ttl" || end === "noport";
	if (!isOn) return null;
	const leaving = columns.leaving[record] ? `by ${interfaceName(columns.leaving[record])}` : "onward";
	const ttl = columns.ttl[record];
	return ["forward", first, `routed ${leaving}${end !== "ttl" && ttl >= 0 ? `, TTL ${ttl} to ${ttl - 1}` : ""}`];
}

const GOES_ON = /^(continue|return|jump|goto)/;

function stepItem([, chain, rule, verdict]) {
	const [name, , , , line] = chainOf(chain), found = ruleOf(chain, rule);
	const kind = verdict === "drop" ? "verdict drop" : GOES_ON.test(verdict) ? "verdict" : "verdict go";
	const item = make("li", "step", null, make("span", kind, verdict), " ");
	item.append(rule === 0 ? "policy" : make("code", "", found ? found[3] : `rule ${rule}`), " ");
	const link = make("a", "chain", rule === 0 ? name : `${name} ${rule}`);
	link.href = `#L${found ? found[2] : line}`;
	item.append(link);
	if (found && found[4]) item.append(make("div", "meta", `was ${found[4]}`));
	return item;
}

// Its connection

function ladder(record) {
	const all = connection(record);
	if (!all.length) return [];
	const middle = all.indexOf(record);
	const start = Math.max(0, Math.min(middle - LADDER / 2, all.length - LADDER));
	const listed = all.slice(start, start + LADDER);
	const table = make("table", "ladder", null, make("tbody", "", null, ...listed.map(one => rung(one, record))));
	const isBegun = all.some(goes);
	const bound = all.length > LADDER ? `; ${number(start + 1)} to ${number(start + listed.length)} are shown` : "";
	const begun = isBegun ? "" : "; none went through, so no connection was begun";
	return [make("h3", "", null, make("span", "", isBegun ? "Its connection" : "Packets of these ends")),
		make("p", "when", `${plural(all.length, "record")}${bound}${begun}`), table];
}

function rung(one, here) {
	const isReply = columns.side[one] === 1;
	const packet = make("td", "k", null, make("div", "", [before(one), flagsText(one)].filter(Boolean).join(" ")));
	if (columns.after[one] && after(one) !== before(one)) packet.append(make("div", "changed", after(one)));
	const step = deciding(one);
	const rule = !step ? "" : step[2] === 0 ? `policy ${step[3]}` : stepText(step);
	const told = goes(one) ? rule : rule ? `${outcome(one)}: ${rule}` : outcome(one);
	const line = make("tr", `${isReply ? "reply" : ""} ${one === here ? "here" : ""}`, null,
		make("td", "t", time(one)), make("td", "a", isReply ? "\u2190" : "\u2192"), packet, make("td", "r", told));
	line.dataset.record = one;
	return line;
}
