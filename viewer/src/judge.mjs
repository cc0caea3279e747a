// The judge of the transcript and its verdict.
import {byId} from "./svg.mjs";

const REPLAYED = "What is shown is replayed by this page, which is tested and not proved.";

const HERE =
  "the audit inside this page, which is the proved one compiled by a way of our own: tested, not proved for this target";

/**
 * The program that the page's maker named, or the page itself if a transcript was opened in it.
 * @param {Judge} judge
 */
function judgeOf({ program, own, here }) {
  if (here) {
    return HERE;
  }
  return own ? `Rudekpi's ${program} audit` :
               `${program} audit, which whoever made this page named, and of which nothing is known here`;
}

/**
 * The text on the judge in the page's foot, and whether its verdict is in doubt by the page's own counts.
 * @param {string} counted
 * @param {Judge} judged
 */
export function judgement(judged, counted) {
  const { verdict } = judged;
  if (verdict === null) {
    return { doubtful: true, text: `Nobody has judged this transcript: ask console audit. ${REPLAYED}` };
  }
  const judge = judgeOf(judged);
  const doubt = verdict === counted ? "" : ` This page counts otherwise: ${counted}.`;
  return { doubtful: doubt !== "", text: `Judged by ${judge}: ${verdict}.${doubt} ${REPLAYED}` };
}

/**
 * @param {Judge} judge
 * @param {string} counted
 */
export function showJudge(judge, counted) {
  const { text, doubtful } = judgement(judge, counted);
  byId("judged").textContent = text;
  byId("judged").classList.toggle("foreign", !judge.own && !judge.here);
  byId("judged").classList.toggle("doubtful", doubtful);
}
