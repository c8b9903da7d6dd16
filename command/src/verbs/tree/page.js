(() => {
  const search = document.querySelector("[role=search]");
  const box = search.querySelector("input");
  const told = search.querySelector("output");
  const [unfold, fold] = search.querySelectorAll("button");
  const folds = [...document.querySelectorAll("main details")];
  /* without accents and case; an eszett is two letters */
  const plain = text => text.normalize("NFKD").replace(/\p{M}/gu, "").toLowerCase().toUpperCase();
  const entries = [...document.querySelectorAll("main details, main p")].map(place => {
    const head = place.querySelector("summary") || place;
    const names = [...head.querySelectorAll("bdi")].map(name => plain(name.textContent));
    return { place, names };
  });
  const firsts = entries.filter(entry => entry.place.id);
  const count = fits => firsts.reduce((sum, entry) => sum + entry.names.filter(fits).length, 0);
  const around = (place, act) => {
    while (place = place.parentElement.closest("details")) act(place);
  };
  let before = null; /* which entries were open before the filter */

  const filter = () => {
    const words = plain(box.value).split(/\s+/).filter(word => word);
    const wanted = words.length > 0;
    const fits = name => words.every(word => name.includes(word));
    const found = new Set(wanted ? entries.filter(entry => entry.names.some(fits)) : []);
    told.value = wanted ? count(fits) + " of " + count(() => true) + " kinds" : "";
    if (wanted) before ??= folds.map(entry => entry.open);
    entries.forEach(entry => {
      entry.place.hidden = wanted;
      entry.place.classList.toggle("fits", found.has(entry));
    });
    /* what fits, what it lies under, and what lies below it */
    found.forEach(entry => {
      entry.place.hidden = false;
      around(entry.place, above => { above.hidden = false; });
      entry.place.querySelectorAll("details, p").forEach(below => { below.hidden = false; });
    });
    if (before) folds.forEach((entry, i) => { entry.open = wanted ? true : before[i]; });
    if (!wanted) before = null;
  };
  const reveal = () => {
    const target = document.getElementById(location.hash.slice(1));
    if (!target) return;
    if (target.closest("[hidden]")) {
      box.value = "";
      filter();
    }
    around(target, above => { above.open = true; });
    target.scrollIntoView();
  };
  unfold.onclick = () => folds.forEach(entry => { entry.open = true; });
  fold.onclick = () => folds.forEach(entry => { entry.open = false; });
  box.oninput = filter;
  onhashchange = reveal;
  search.hidden = false;
  filter();
  reveal();
})();
