// What a record is: the columns of numbers that the page brings, read as texts.

const HOOKS = ["prerouting", "input", "forward", "postrouting"];
const FLAGS = [["syn", 2], ["ack", 16], ["fin", 1], ["rst", 4], ["psh", 8], ["urg", 32]];
const THROUGH = { passed: "passed", local: "to the box" };
const UNSENT = "not sent", COPY = "outgoing copy";

let data, columns, count, times;

const at = id => document.getElementById(id);
const number = value => value.toLocaleString("en-US");
const plural = (value, word) => `${number(value)} ${word}${value === 1 ? "" : "s"}`;

// What is shown of files comes by textContent alone, so that no text can become markup.
function make(tag, kind, text, ...children) {
	const element = document.createElement(tag);
	if (kind) element.className = kind;
	if (text !== undefined && text !== null) element.textContent = text;
	element.append(...children);
	return element;
}

async function unpack() {
	const bytes = Uint8Array.from(atob(at("data").textContent), letter => letter.charCodeAt(0));
	const stream = new Blob([bytes]).stream().pipeThrough(new DecompressionStream("deflate"));
	data = JSON.parse(await new Response(stream).text());
	at("data").remove();
	columns = data.columns;
	count = columns.path.length;
	times = new Float64Array(count);
	for (let record = 1; record < count; record += 1) times[record] = times[record - 1] + columns.time[record];
}

const outcome = record => data.outcomes[columns.outcome[record]];
const outcomeWord = record => THROUGH[outcome(record)] || outcome(record);
const goes = record => outcome(record) in THROUGH;
const isDropped = record => !goes(record) && ![UNSENT, COPY].includes(outcome(record));
const outcomeClass = record => goes(record) ? "o go" : isDropped(record) ? "o" : "o un";
const before = record => data.strings[columns.before[record]];
const after = record => data.strings[columns.after[record]];
const steps = record => data.paths[columns.path[record]].map(step => data.steps[step]);
const stateOf = record => data.states[columns.state[record]];
const interfaceName = index => data.interfaces[index] || `index ${index}`;
const chainOf = place => data.chains[place] || ["?", "", "", 0, 0, false];
const ruleOf = (chain, rule) => data.rules.find(one => one[0] === chain && one[1] === rule);

function flagsText(record) {
	const flags = columns.flags[record];
	if (flags < 0) return "";
	return FLAGS.filter(([, bit]) => flags & bit).map(([name]) => name).join(" ") || "no flags";
}

function time(record) {
	return (times[record] / 1e9).toFixed(6).replace(/0{1,5}$/, "");
}

function clock(record) {
	const moment = BigInt(data.first) + BigInt(Math.round(times[record]));
	const date = new Date(Number(moment / 1000000n));
	const fraction = (moment % 1000000000n).toString().padStart(9, "0");
	return `${date.toISOString().slice(0, 19).replace("T", " ")}.${fraction} UTC`;
}

// The parts of "udp A:1 > B:2 rest"
function parts(text) {
	const words = text.split(" ");
	const arrow = words.indexOf(">");
	return arrow < 1 ? null : {
		kind: words.slice(0, arrow - 1).join(" "), source: words[arrow - 1], target: words[arrow + 1],
		rest: words.slice(arrow + 2).join(" "),
	};
}

function translations(record) {
	const one = parts(before(record)), other = parts(after(record));
	if (!one || !other) return [];
	const changes = [];
	if (one.target !== other.target) changes.push(["target", `destination ${one.target} became ${other.target}`]);
	if (one.source !== other.source) changes.push(["source", `source ${one.source} became ${other.source}`]);
	if (one.rest !== other.rest) changes.push(["rest", `${one.rest} became ${other.rest}`]);
	return changes;
}

const decides = step => step[2] === 0 || step[3] !== "continue";

// The step by which a record was dropped, or let through
function deciding(record) {
	const all = steps(record).filter(decides);
	const isFilter = step => step[3] === "accept" && ["input", "forward"].includes(chainOf(step[0])[1]);
	return all.find(step => step[3] === "drop") || all.filter(isFilter).pop() || all[all.length - 1];
}

function stepText([, chain, rule]) {
	if (rule === 0) return "policy";
	const found = ruleOf(chain, rule);
	return found ? found[3] : `rule ${rule}`;
}

let recordsByConnection = null;

// The records of the connection that a record is of
function connection(record) {
	if (!columns.connection[record]) return [];
	if (!recordsByConnection) {
		recordsByConnection = new Map();
		columns.connection.forEach((one, place) => {
			if (!one) return;
			if (!recordsByConnection.has(one)) recordsByConnection.set(one, []);
			recordsByConnection.get(one).push(place);
		});
	}
	return recordsByConnection.get(columns.connection[record]);
}
