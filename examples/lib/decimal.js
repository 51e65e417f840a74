/*
 * Decimals, kept as whole numbers of their last place: with 2 places 12.50 is 1250. What is no decimal, has
 * over 64 characters or would leave the numbers is NaN, so no text and no amount ends the widget. Places are
 * 0 to 15.
 */
ADSAFE.lib("decimal", function (lib) {
    "use strict";
    var most = 9007199254740991;

    // The place of the first character that is no digit.
    function digitsEnd(text, from) {
        var at = from;
        while (text.charAt(at) >= "0" && text.charAt(at) <= "9") {
            at += 1;
        }
        return at;
    }
    // The number of a text of digits, NaN where it is too large.
    function whole(digits) {
        var from = 0, rest;
        while (digits.charAt(from) === "0") {
            from += 1;
        }
        rest = digits.slice(from);
        return rest.length > 16 || (rest.length === 16 && rest > String(most)) ? NaN : Number(rest);
    }
    function zeros(n) {
        return "0000000000000000".slice(0, Math.max(n, 0));
    }
    // The number of a decimal such as -12.5; NaN where it has more than these places.
    function read(text, places) {
        var from = text.charAt(0) === "-" || text.charAt(0) === "+" ? 1 : 0, dot, end, digits, n;
        if (text.length > 64) {
            return NaN;
        }
        dot = digitsEnd(text, from);
        end = dot;
        if (text.charAt(dot) === ".") {
            end = digitsEnd(text, dot + 1);
        }
        if (end < text.length || end === from || end - dot - 1 > places || (end === dot + 1 && dot === from)) {
            return NaN;
        }
        digits = text.slice(from, dot) + text.slice(dot + 1, end);
        n = whole(digits + zeros(end > dot ? places - (end - dot - 1) : places));
        return text.charAt(0) === "-" ? -n : n;
    }
    // A number as a decimal with just these places.
    function write(n, places) {
        var digits = String(Math.abs(n)), point;
        if (isNaN(n)) {
            return "NaN";
        }
        digits = zeros(places + 1 - digits.length) + digits;
        point = digits.length - places;
        return (n < 0 ? "-" : "") + digits.slice(0, point) + (places > 0 ? "." : "") + digits.slice(point);
    }
    // a / b as a whole number, halves away from 0; NaN for b 0.
    function divide(a, b) {
        var rest = Math.abs(a % b), quotient = (a - a % b) / b;
        if (rest >= Math.abs(b) - rest) {
            quotient += (a < 0) === (b < 0) ? 1 : -1;
        }
        return quotient;
    }
    // a * b with so many places dropped.
    function times(a, b, drop) {
        var size = Math.abs(a);
        if (size > 0 && Math.abs(b) > (most - most % size) / size) {
            return NaN;
        }
        return divide(a * b, Math.pow(10, drop));
    }
    function plus(a, b) {
        var room = most - Math.abs(a);
        return (a < 0) === (b < 0) && Math.abs(b) > room ? NaN : a + b;
    }
    return {
        read: read,
        write: write,
        plus: plus,
        times: times,
        divide: divide
    };
});
