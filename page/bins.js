/**
 * Cuts a range of numbers or days at round limits, for a histogram.
 */
const MONTHS = [1, 3, 6, 12, 24, 60, 120, 240, 600, 1200, 2400, 6000, 12_000];
const FACTORS = [1, 2, 2.5, 5, 10];
const MOST_DIGITS = 6;
const DAY = 86_400_000;
const FIRST_MONTH = 12;
const LAST_MONTH = 9999 * 12 + 11;

export const timeOf = (day) => Date.parse(`${day}T00:00:00Z`);
const dayOf = (time) => new Date(time).toISOString().slice(0, 10);
const monthOf = (day) => Number(day.slice(0, 4)) * 12 + Number(day.slice(5, 7)) - 1;
export const firstDayOf = (month) => `${String(Math.floor(month / 12)).padStart(4, "0")}-${String((month % 12) + 1).padStart(2, "0")}-01`;

/** Round limits of about `most` bins over the numbers from `least` to `greatest`, each as a number and as a literal. */
function roundLimits(least, greatest, isWhole, most) {
    const rough = (greatest - least) / most || 1;
    const power = 10 ** Math.floor(Math.log10(rough));
    const step = FACTORS.map((factor) => factor * power).find((one) => one >= rough * 0.999 && (!isWhole || Number.isInteger(one))) ?? 1;
    const digits = isWhole ? 0 : Math.max(0, Math.min(MOST_DIGITS, 1 - Math.floor(Math.log10(step))));
    const limits = [];
    for (let at = Math.floor(least / step); at === Math.floor(least / step) || (at - 1) * step <= greatest; at += 1) {
        const text = (at * step).toFixed(digits);
        limits.push({ at: Number(text), literal: digits === 0 ? text : text.replace(/\.?0+$/, "") });
    }
    return limits;
}

/** Limits at the first days of months, quarters, years or more of them. Days have the years 1 to 9999: beyond them the limit is the least or the greatest value. */
function dayLimits(least, greatest, most) {
    const [from, to] = [monthOf(least), monthOf(greatest)];
    const step = MONTHS.find((months) => (to - from) / months < most) ?? MONTHS.at(-1);
    const limits = [];
    for (let month = Math.floor(from / step) * step; limits.length === 0 || month - step <= to; month += step) {
        const literal = month < FIRST_MONTH ? least : month > LAST_MONTH ? greatest : firstDayOf(month);
        limits.push({ at: timeOf(literal) + (month > LAST_MONTH ? DAY : 0), literal });
    }
    return limits;
}

/** Returns about `most` bins, each with its lower and upper limit, the upper one excluded. */
export function binsOf({ least, most: greatest }, type, most) {
    const limits = type === "date" ? dayLimits(least, greatest, most) : roundLimits(Number(least), Number(greatest), type === "integer", most);
    return limits.slice(0, -1).map((low, at) => ({ low, high: limits[at + 1] }));
}

/** Returns a chip for the values of a bin. Whole numbers and days have a last value within it. */
export function chipOfBin({ low, high }, { name, type }) {
    if (type === "decimal") {
        return { column: name, test: "span", values: [low.literal, high.literal] };
    }
    const last = type === "date" ? dayOf(high.at - DAY) : String(BigInt(high.literal) - 1n);
    return { column: name, test: "range", values: [low.literal, last] };
}
