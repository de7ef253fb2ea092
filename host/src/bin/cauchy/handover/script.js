// Makes the list of links tabs, as WAI-ARIA has them. Without it the page is one section after the other, as on paper.
"use strict";
(() => {
  const list = document.querySelector("nav ul");
  const tabs = [...list.querySelectorAll("a")];
  const panelOf = (tab) => document.getElementById(tab.hash.slice(1));

  // A table that is wider than its box says so: a figure that is cut at the edge must not be taken for a whole one.
  const markCut = () => {
    for (const box of document.querySelectorAll(".scroll")) {
      box.classList.toggle("cut", box.scrollWidth > box.clientWidth + 1);
    }
  };

  const choose = (chosen) => {
    for (const tab of tabs) {
      const isChosen = tab === chosen;
      tab.setAttribute("aria-selected", String(isChosen));
      tab.tabIndex = isChosen ? 0 : -1;
      panelOf(tab).hidden = !isChosen;
    }
    markCut();
  };

  // The tab of the part of the page that the address names, if it is in one.
  const addressed = () => {
    const part = location.hash && document.getElementById(location.hash.slice(1));
    return part && tabs.find((tab) => panelOf(tab).contains(part));
  };

  list.setAttribute("role", "tablist");
  list.setAttribute("aria-label", "Tabs");
  for (const tab of tabs) {
    const panel = panelOf(tab);
    tab.parentElement.setAttribute("role", "none");
    tab.setAttribute("role", "tab");
    tab.setAttribute("aria-controls", panel.id);
    panel.setAttribute("role", "tabpanel");
    panel.tabIndex = 0;
    tab.addEventListener("click", (event) => {
      event.preventDefault();
      choose(tab);
      history.replaceState(null, "", tab.hash);
    });
  }

  list.addEventListener("keydown", (event) => {
    const at = tabs.indexOf(document.activeElement);
    const to = { ArrowLeft: at - 1, ArrowRight: at + 1, Home: 0, End: tabs.length - 1 }[event.key];
    if (at < 0 || to === undefined) return;
    event.preventDefault();
    const tab = tabs[(to + tabs.length) % tabs.length];
    choose(tab);
    tab.focus();
  });

  addEventListener("resize", markCut);
  addEventListener("hashchange", () => {
    const tab = addressed();
    if (!tab) return;
    choose(tab);
    document.getElementById(location.hash.slice(1)).scrollIntoView();
  });

  choose(addressed() || tabs[0]);
})();
