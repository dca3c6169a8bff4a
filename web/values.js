// What is wrong with a number or an expression, as tools/refusals.py says it.

import { isNumber, NAME, number } from "./source.js";

const NUMBER = "(?:-?[0-9]+|0x[0-9a-fA-F]+)";
const TWO_NAMES = new RegExp(`^${NAME}\\s*([+-])\\s*${NAME}$`), EXPRESSION = new RegExp(`^(hi\\(|lo\\()*(${NUMBER}|${NAME}([+-]${NUMBER})?)\\)*$`);

/** What is wrong with an operand that should be a number or an expression; nothing where that isn't known. */
export function ofAValue(operand) {
  const offset = operand.replace(/\(\$\w+\)$/, "");
  if (/^[0-9]+[fb]$/.test(offset)) return `There are no numbered labels: give the line a label with a name, and write that in place of \`${offset}\`.`;
  if (/^\+[0-9]+$/.test(offset)) return `A number has no \`+\`: write \`${offset.slice(1)}\`.`;
  if (/^[-+]?([0-9]+\.[0-9]*|[0-9]*\.[0-9]+|[0-9]+)(e[-+]?[0-9]+)?$/i.test(offset) && !isNumber(offset)) {
    return `\`${offset}\` isn't a whole number: numbers are decimal without a point or an exponent, or hexadecimal with \`0x\`.`;
  }
  if (/^0x/i.test(offset) && !/^0x[0-9a-fA-F]+([+-].*)?$/.test(offset)) {
    return `\`${offset}\` isn't a number: ${offset.startsWith("0X") ? "`0x` has a small x" : "after `0x` stand digits, `0` to `9` and `a` to `f`"}.`;
  }
  if (isNumber(offset) && !(number(offset) >= -(1n << 31n) && number(offset) < 1n << 32n)) {
    return `\`${offset}\` doesn't fit into 32 bits: numbers lie between -2147483648 and 4294967295.`;
  }
  return ofAnExpression(operand, offset);
}

function ofAnExpression(operand, offset) {
  const two = TWO_NAMES.exec(offset);
  if (two) {
    return `\`${offset}\` isn't an expression here, since it has two names: put both into registers, and write \`${two[1] === "+" ? "addu" : "subu"}\`.`;
  }
  if (!operand) return "An operand is missing: nothing stands at a comma.";
  if (offset.split("(").length !== offset.split(")").length) return `A bracket of \`${offset}\` is missing.`;
  if (EXPRESSION.test(offset || "0")) return null;
  return `\`${operand}\` isn't an expression here: that is a number, a name, or a name and \`+\` or \`-\` and a number.`;
}
