ADSAFE.lib("m", function (lib) {
    return function (a, b) { return a == b; };
});
