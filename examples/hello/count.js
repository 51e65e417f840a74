ADSAFE.lib("count", function (lib) {
    "use strict";
    return {
        make: function () {
            var n = 0;
            return {
                next: function () {
                    n += 1;
                    return n;
                }
            };
        }
    };
});
