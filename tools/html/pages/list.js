// The list of records, and what is chosen by links: a rule, a policy, an outcome, a sender, a group of changes.

const PAGE = 200;
let shown = [], from = 0, chosen = -1, label = "";

function choose(records, text) {
	shown = records;
	label = text;
	from = 0;
	list();
}

function list() {
	const box = at("list"), many = shown.length, last = Math.min(from + PAGE, many);
	box.replaceChildren(...shown.slice(from, last).map(row));
	at("which").textContent = `${label}: ${plural(many, "record")}` +
		(many > PAGE ? `; ${number(from + 1)} to ${number(last)} are listed` : "");
	at("pages").hidden = many <= PAGE;
	at("before").disabled = from === 0;
	at("after").disabled = last >= many;
	if (!many) box.append(make("p", "none empty", "No record."));
	box.scrollTop = 0;
}

function row(record) {
	const element = make("div", "row", null,
		make("span", "n", number(record + 1)), make("span", "p", before(record)),
		make("span", outcomeClass(record), outcomeWord(record)));
	element.setAttribute("role", "option");
	element.setAttribute("aria-selected", String(record === chosen));
	element.dataset.record = record;
	return element;
}

function everything() {
	choose(Array.from({ length: count }, (_, record) => record), "all");
}

function pathsWith(test) {
	const found = new Set();
	data.paths.forEach((path, place) => { if (path.some(step => test(data.steps[step]))) found.add(place); });
	return record => found.has(columns.path[record]);
}

function byRule(index) {
	const rule = data.rules[index];
	if (!rule) return;
	const [chain, ruleNumber, line] = rule;
	markLine(line);
	choose(recordsThat([pathsWith(step => step[1] === chain && step[2] === ruleNumber)]),
		`rule ${ruleNumber} of ${chainOf(chain)[0]}`);
}

function byPolicy(chain) {
	markLine(chainOf(chain)[4]);
	choose(recordsThat([pathsWith(step => step[1] === chain && step[2] === 0)]), `policy of ${chainOf(chain)[0]}`);
}

function byOutcome(name, place) {
	const wanted = data.outcomes.indexOf(name), isHook = HOOKS.includes(place);
	const inHook = isHook && name === "rule"
		? pathsWith(step => step[3] === "drop" && chainOf(step[0])[1] === place) : () => true;
	choose(recordsThat([record => columns.outcome[record] === wanted, inHook]),
		`${THROUGH[name] || `dropped for ${name}`}${isHook ? ` in ${place}` : ""}`);
}

function bySender(address) {
	const isFrom = record => (parts(before(record)) || { source: "" }).source.split(":")[0] === address;
	choose(recordsThat([isDropped, isFrom]), `dropped, from ${address}`);
}

function byGroup(wanted) {
	const group = data.groups.find(one => one[0] === wanted);
	if (group) choose(group[4].map(record => record - 1).filter(record => record < count), `${group[1]}, group ${group[0]}`);
}

function byWords(text) {
	if (!text.trim()) return everything();
	const { tests, unknown } = asked(text);
	if (unknown.length) {
		choose([], text);
		at("which").textContent = `“${unknown.join(" ")}” isn't known here; search for ${KNOWN}.`;
		return;
	}
	const records = recordsThat(tests);
	choose(records, text);
	const lone = text.trim();
	if (/^#?[0-9,]+$/.test(lone) && records.length) show(records[0]);
	if (NUMBER.test(lone)) offerPort(numberOf(lone));
}

// A number alone is a record's; the port of that number is offered beside it
function offerPort(port) {
	const many = recordsThat([hasPort(port)]).length;
	at("which").textContent = `record ${number(port)}${shown.length ? "" : ": there is none"}`;
	if (!many) return;
	const button = make("button", "link", `port ${port}: ${plural(many, "record")}`);
	button.type = "button";
	button.addEventListener("click", () => {
		at("search").value = `port ${port}`;
		byWords(at("search").value);
	});
	at("which").append(" · ", button);
}

function markLine(line) {
	document.querySelectorAll(".line.target").forEach(one => one.classList.remove("target"));
	const element = at(`L${line}`);
	if (element) element.classList.add("target");
}

function move(by) {
	if (!shown.length) return;
	const place = shown.indexOf(chosen);
	show(shown[place < 0 ? 0 : Math.max(0, Math.min(shown.length - 1, place + by))]);
}

function turnPage(by) {
	const next = from + by * PAGE;
	if (next < 0 || next >= shown.length) return;
	from = next;
	list();
}
