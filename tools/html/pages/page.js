// Links, keys, and the beginning.

const NARROW = matchMedia("(max-width: 980px)");

// Brings the record that is shown before the reader: where the page is narrow it stands far below its links
function land() {
	const head = document.querySelector("#detail h3");
	if (!head) return;
	const settle = () => head.scrollIntoView({ block: NARROW.matches ? "start" : "nearest", behavior: "instant" });
	if (!NARROW.matches) at("records").scrollIntoView({ block: "nearest", behavior: "instant" });
	settle();
	// lines above that come into sight take their own heights
	requestAnimationFrame(() => requestAnimationFrame(settle));
}

function follow() {
	const hash = decodeURIComponent(location.hash.slice(1));
	const [name, rest = ""] = hash.split(/=(.*)/s);
	const [value, place] = rest.split("&at=");
	if (name === "record") {
		if (show(Number(value) - 1, true)) return land();
		at("which").textContent = `record ${value} isn't among the ${number(count)} that can be looked at`;
		return at("records").scrollIntoView({ block: "start" });
	}
	const act = {
		rule: () => byRule(Number(value)), policy: () => byPolicy(Number(value)), outcome: () => byOutcome(value, place),
		sender: () => bySender(value), group: () => byGroup(Number(value)),
	}[name];
	if (act) {
		act();
		at("records").scrollIntoView({ block: NARROW.matches ? "start" : "nearest" });
	} else if (/^L[0-9]+$/.test(name)) {
		markLine(name.slice(1));
	}
}

// The next of the elements behind the one that is marked, in the middle of the window
function nextOf(selector, mark) {
	const all = [...document.querySelectorAll(selector)];
	if (!all.length) return;
	const next = all[(all.findIndex(one => one.classList.contains("target")) + 1) % all.length];
	mark(next);
	next.scrollIntoView({ block: "center" });
}

function nextUnmet() {
	nextOf(".line.unmet", line => markLine(line.id.slice(1)));
}

function nextChange() {
	nextOf(".pair.differs", pair => {
		document.querySelectorAll(".pair.target").forEach(one => one.classList.remove("target"));
		pair.classList.add("target");
	});
}

const KEYS = {
	"/": () => at("search").focus(), "?": () => at("help").showModal(), u: nextUnmet, n: nextChange,
	j: () => move(1), k: () => move(-1), "[": () => turnPage(-1), "]": () => turnPage(1),
	c: () => {
		if (connection(chosen).length) choose(connection(chosen), `the connection of record ${number(chosen + 1)}`);
	},
};

function press(event) {
	if (event.ctrlKey || event.metaKey || event.altKey || at("help").open) return;
	const isDown = event.key === "ArrowDown", isArrow = isDown || event.key === "ArrowUp";
	if (event.key === "Escape") {
		at("search").value = "";
		at("list").focus();
		return everything();
	}
	if (event.target.id === "search") {
		if (!isDown) return;
		event.preventDefault();
		at("list").focus();
		return move(1);
	}
	if (event.target.id === "list" && isArrow) {
		event.preventDefault();
		return move(isDown ? 1 : -1);
	}
	if (!KEYS[event.key]) return;
	event.preventDefault();
	KEYS[event.key]();
}

function click(event) {
	const link = event.target.closest("a[href^='#']");
	// a second click on the same link
	if (link && (link.href.baseVal || link.getAttribute("href")) === location.hash) follow();
	const line = event.target.closest("[data-record]");
	if (!line || line.tagName === "H3") return;
	show(Number(line.dataset.record));
	if (NARROW.matches) land();
}

function listen() {
	let waiting;
	const search = () => byWords(at("search").value);
	addEventListener("hashchange", follow);
	document.addEventListener("click", click);
	document.addEventListener("keydown", press);
	at("filter").addEventListener("submit", event => {
		event.preventDefault();
		search();
	});
	at("search").addEventListener("input", () => {
		clearTimeout(waiting);
		waiting = setTimeout(search, 150);
	});
	const buttons = {
		all: everything, before: () => turnPage(-1), after: () => turnPage(1), "help-button": () => at("help").showModal(),
		"next-unmet": nextUnmet, "next-change": nextChange,
	};
	for (const [id, act] of Object.entries(buttons)) if (at(id)) at(id).addEventListener("click", act);
}

async function start() {
	try {
		await unpack();
	} catch (fault) {
		at("which").textContent = "This browser can't unpack the records (it lacks DecompressionStream).";
		return;
	}
	everything();
	listen();
	follow();
	document.documentElement.dataset.ready = "yes";
}

start();
