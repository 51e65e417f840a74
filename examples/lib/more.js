/*
 * What arrays and texts of browsers have and those of widgets have not.
 */
ADSAFE.lib("more", function (lib) {
    "use strict";
    var blanks = " \t\r\n", more = {};

    // The place of the first element that is v, or -1.
    more.indexOf = function (list, v) {
        var i;
        for (i = 0; i < list.length; i += 1) {
            if (list[+i] === v) {
                return i;
            }
        }
        return -1;
    };
    // The first element for which test is true, or undefined.
    more.find = function (list, test) {
        var i;
        for (i = 0; i < list.length; i += 1) {
            if (test(list[+i])) {
                return list[+i];
            }
        }
        return undefined;
    };
    more.some = function (list, test) {
        return list.filter(test).length > 0;
    };
    more.every = function (list, test) {
        return list.filter(test).length === list.length;
    };
    // start with each element joined to it in turn by join(sum, element).
    more.reduce = function (list, join, start) {
        var sum = start;
        list.forEach(function (v) {
            sum = join(sum, v);
        });
        return sum;
    };
    // A new list in order: isBefore(a, b) says whether a comes before b. What is equal keeps its order.
    more.sort = function (list, isBefore) {
        var half = (list.length - list.length % 2) / 2, left, right, i = 0, k = 0, out = [];
        if (list.length < 2) {
            return list.slice(0);
        }
        left = more.sort(list.slice(0, half), isBefore);
        right = more.sort(list.slice(half), isBefore);
        while (i < left.length || k < right.length) {
            if (k === right.length || (i < left.length && !isBefore(right[+k], left[+i]))) {
                out.push(left[+i]);
                i += 1;
            } else {
                out.push(right[+k]);
                k += 1;
            }
        }
        return out;
    };
    // The text without the blanks at its ends.
    more.trim = function (text) {
        var from = 0, to = text.length;
        while (from < to && blanks.indexOf(text.charAt(from)) >= 0) {
            from += 1;
        }
        while (to > from && blanks.indexOf(text.charAt(to - 1)) >= 0) {
            to -= 1;
        }
        return text.slice(from, to);
    };
    // The text with the first old in it replaced.
    more.replace = function (text, old, other) {
        var at = text.indexOf(old);
        return at < 0 ? text : text.slice(0, at) + other + text.slice(at + old.length);
    };
    more.replaceAll = function (text, old, other) {
        return text.split(old).join(other);
    };
    more.startsWith = function (text, head) {
        return text.slice(0, head.length) === head;
    };
    more.endsWith = function (text, tail) {
        return text.length >= tail.length && text.slice(text.length - tail.length) === tail;
    };
    // The whole number that a text of digits is; NaN where it is none, or has over 15 of them.
    more.whole = function (text) {
        var i;
        if (text.length === 0 || text.length > 15) {
            return NaN;
        }
        for (i = 0; i < text.length; i += 1) {
            if (text.charAt(i) < "0" || text.charAt(i) > "9") {
                return NaN;
            }
        }
        return Number(text);
    };
    return more;
});
