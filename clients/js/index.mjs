// The package for ECMAScript modules. Both have the same classes.
import toxi from "./index.js";

export const { Toxi, ToxiEnded, ToxiFault, ToxiTimeout, answerRuns } = toxi;
