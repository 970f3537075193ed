/* A page is first seen in the middle of things: a tile with mail both ways, the run near its third */

function firstSeen() {
  const busy = upTo(TILES).filter(t => plan.sentBy[t].length && plan.takenBy[t].length);
  S.tile = busy.length ? busy[busy.length >> 1] : 0;
  S.message = plan.sentBy[S.tile].length ? plan.sentBy[S.tile][0] : null;
  const cells = S.message === null ? cellsOf[S.tile] : Array.from(plan.messages[S.message].cells);
  S.cell = cells.find(c => D.distances.every(([d]) => moved(c, d, -1) >= 0)) ?? cells[0];
  S.t = Math.floor(R.count / 3);
  while (S.t < R.count && !mayBe(plan, S.t)) S.t++;
  S.t = S.t < R.count ? S.t + 1 : Math.floor(R.count / 3);
}

tellHeader();
tellLead();
tellAll();
firstSeen();
drawAll();
listen();
