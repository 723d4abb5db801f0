// Search, counts, pages and age. Without it the page is true: counts, cards and lines stand there as text.
(() => {
  "use strict";
  const PAGE = 100; // decks of a group that are shown at first, and by each click more
  const DAY = 24 * 60; // minutes
  const one = (what, where = document) => where.querySelector(what);
  const all = (what, where = document) => [...where.querySelectorAll(what)];
  const make = (name, kind, words = "") => {
    const made = document.createElement(name);
    made.className = kind;
    made.textContent = words;
    return made;
  };

  // ---- how old the board is, by the clock of who looks at it ----

  const age = one(".age"), done = age.textContent, title = document.title, icon = one("link[rel=icon]"), colour = icon.href;

  function ago(minutes) {
    if (minutes < 1) return "less than a minute ago";
    if (minutes < 120) return minutes + " min ago";
    return minutes < 3 * DAY ? Math.floor(minutes / 60) + " h ago" : Math.floor(minutes / DAY) + " days ago";
  }

  function tell() {
    const minutes = Math.floor((Date.now() - Date.parse(one("time").dateTime)) / 60000);
    const ahead = minutes < -5, old = minutes >= DAY;
    age.textContent = ahead ? done : done + " " + ago(minutes) + ",";
    one(".old-words").hidden = !old;
    one(".ahead-words").hidden = !ahead;
    document.documentElement.classList.toggle("old", old || ahead);
    icon.href = old || ahead ? colour.replace(/fill%3D%22%23\w{6}/, "fill%3D%22%23767676") : colour;
    document.title = (old ? "Old: " : "") + title;
  }

  tell();
  setInterval(tell, 30000);
  document.addEventListener("visibilitychange", tell);
  one(".still").hidden = true;

  // ---- the groups: cards that stand there, and lines that become elements when they are to be seen ----

  const search = one("input");
  if (!search) return;
  const fields = one("main").dataset.fields.split("|"), names = one("main").dataset.names.split("|"), low = fields.map((name) => name.toLowerCase());
  const buttons = all(".controls button"), output = one("output"), none = one(".none");
  const groups = all(".group").map((box) => {
    const rest = one(".rest", box);
    const cards = all(":scope > .deck", box).map((element) => {
      const sha = one(".sha", element);
      return { element, name: one(".name", element).textContent.toLowerCase(), sha: sha ? sha.textContent : "" };
    });
    const list = box.appendChild(make("div", "list")), foot = box.appendChild(make("p", "more"));
    const group = { box, cards, rest, list, foot, lines: null, hits: null, made: 0, ...box.dataset, wrong: (box.dataset.wrong || "").split(" ") };
    if (rest) rest.hidden = true;
    box.addEventListener("toggle", () => box.open && fill(group));
    return group;
  });
  const total = groups.reduce((sum, group) => sum + ("beside" in group ? 0 : +group.count), 0);

  function lines(group) {
    if (!group.lines) {
      const texts = group.rest ? one("pre", group.rest).textContent.split("\n").filter(Boolean) : [];
      group.lines = texts.map((line) => {
        const [name, said, sha] = line.split("\t");
        return { line, name: name.toLowerCase(), sha: sha || "" };
      });
    }
    return group.lines;
  }

  function fill(group, more = 0) {
    const shown = group.cards.filter((card) => !card.element.hidden).length;
    const those = group.hits || lines(group);
    const end = Math.min(those.length, Math.max(group.made, PAGE - shown) + more);
    group.list.append(...those.slice(group.made, end).map((deck) => element(group, deck.line)));
    group.made = end;
    group.foot.textContent = "";
    if (end === those.length) return;
    group.foot.append(make("span", "", shown + end + " of " + (shown + those.length) + " are shown. "));
    const button = group.foot.appendChild(make("button", "", Math.min(PAGE, those.length - end) + " more"));
    button.addEventListener("click", () => fill(group, PAGE));
  }

  function element(group, line) {
    const [name, said, sha] = line.split("\t");
    const deck = make(sha ? "details" : "div", "deck " + group.kind), head = sha ? deck.appendChild(make("summary", "")) : deck;
    head.append(one(".light", group.box).cloneNode(true), make("bdi", "name", name), " ");
    const claims = group.kind === "accepted" || group.kind === "differs" ? said.split(", ").map(claim) : [];
    const wrong = claims.filter((claim) => claim.by);
    const short = wrong.map((claim) => claim.name.replace(" ", "\u00a0") + "\u00a0" + claim.said + ", worked out\u00a0" + claim.worked + " (" + claim.by + ")");
    head.append(make("span", "said", short.join("; ") || said || ""));
    if (!sha) return deck;
    const body = deck.appendChild(make("div", "body"));
    if (claims.length) body.append(table(claims, wrong.length));
    body.append(make("p", "undrawn", "Not drawn: one of many."));
    const foot = body.appendChild(make("p", "", "SHA-256 "));
    foot.append(make("code", "sha", sha));
    return deck;
  }

  function claim(words) {
    const [, name, said, worked] = words.match(/^(\S+) ([^≠]*)≠?(.*)$/);
    return { name: names[fields.indexOf(name)], said, worked: worked || said, by: worked && difference(said, worked) };
  }

  function difference(said, worked) {
    if (!/^\d+$/.test(said) || !/^\d+$/.test(worked)) return "wrong";
    const by = BigInt(said) - BigInt(worked);
    return by > 0 ? "+" + by : "\u2212" + -by;
  }

  function table(claims, wrong) {
    const made = make("table", claims.some((claim) => Math.max(claim.said.length, claim.worked.length) > 9) ? "long" : "");
    const head = made.createTHead().insertRow();
    head.append(make("td", ""), ...["claimed", "worked out", "difference"].slice(0, wrong ? 3 : 2).map((name) => make("th", "", name)));
    const rows = made.createTBody();
    claims.forEach((claim) => {
      const row = rows.insertRow();
      row.append(make("th", "", claim.name), make("td", claim.by ? "wrong" : "", claim.said), make("td", "", claim.worked));
      if (claim.by) row.append(make("td", "", claim.by));
    });
    return made;
  }

  // ---- the search: a verdict with its number or its fields, a hash, and whatever else is of the name ----

  function asked(words) {
    const query = { kind: "", number: "", wrong: [], names: [], rest: [] };
    let after = false; // what follows a verdict is its number or its fields
    buttons.forEach(({ dataset }) => { words = words.replace(new RegExp("\\b" + dataset.word + "\\b", "i"), dataset.kind); });
    (words.match(/"[^"]*"?|\S+/g) || []).forEach((token) => {
      const plain = token.toLowerCase().replace(/[,:;]$/, ""), number = /^\d+$/.test(plain);
      const field = number ? plain - 1 : low.indexOf(plain);
      if (!query.kind && buttons.some(({ dataset }) => dataset.kind === plain)) {
        query.kind = plain;
        after = true;
      } else if (after && query.kind === "refused" && number && !query.number) query.number = String(+plain);
      else if (after && query.kind === "differs" && field in fields) query.wrong.push(fields[field]);
      else if (after && query.wrong.length && /^(part|distance|index|and)$/.test(plain)) return;
      else {
        after = false;
        query.names.push(token.toLowerCase().replace(/"/g, ""));
        query.rest.push(token);
      }
    });
    return query;
  }

  const hash = (word) => /^[0-9a-f]{6,64}$/.test(word);
  const fits = (query) => (deck) =>
    query.names.every((word) => deck.name.includes(word) || (hash(word) && (deck.sha.startsWith(word) || deck.sha.endsWith(word))));

  function refresh() {
    const words = search.value.trim(), query = asked(words), fit = fits(query);
    history.replaceState(null, "", words ? "#" + encodeURIComponent(words) : location.href.split("#")[0]); // a search can be linked to
    let shown = 0, seen = 0;
    groups.forEach((group) => {
      if (words && group.was === undefined) group.was = group.box.open;
      const whole = (!query.kind || query.kind === group.kind) && (!query.number || query.number === group.number)
        && query.wrong.every((name) => group.wrong.includes(name));
      group.cards.forEach((card) => { card.element.hidden = !(whole && fit(card)); });
      group.hits = !words ? null : whole ? lines(group).filter(fit) : [];
      const count = words ? group.cards.filter((card) => !card.element.hidden).length + group.hits.length : +group.count;
      group.list.textContent = group.foot.textContent = "";
      group.made = 0;
      one("summary i", group.box).textContent = count < +group.count ? count + " of them shown" : "";
      group.box.hidden = count === 0;
      group.box.open = words ? count > 0 : group.was !== undefined ? group.was : group.box.open;
      if (!words) group.was = undefined;
      if (group.box.open) fill(group);
      seen += count;
      if (!("beside" in group)) shown += count;
    });
    output.textContent = words ? "Filtered by \u201c" + words + "\u201d: " + shown + " of " + total + " shown." : "";
    none.hidden = seen > 0 || !words;
    none.textContent = "Nothing fits \u201c" + words + "\u201d. A name is found by its letters, a SHA-256 by six digits or more, a verdict as"
      + " \u201crefused 7\u201d or \u201cdiffers odd\u201d.";
    buttons.forEach((button) => button.setAttribute("aria-pressed", String(button.dataset.kind === query.kind)));
  }

  buttons.forEach((button) => {
    button.disabled = button.dataset.count === "0";
    button.addEventListener("click", () => {
      const query = asked(search.value), again = query.kind === button.dataset.kind;
      search.value = [...(again ? [] : [button.dataset.kind]), ...query.rest].join(" ");
      refresh();
    });
  });
  search.addEventListener("input", refresh);
  search.hidden = false;
  try {
    search.value = decodeURIComponent(location.hash.slice(1));
  } catch (_) {} // no words that were encoded
  refresh();
})();
