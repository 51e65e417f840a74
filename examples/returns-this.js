ADSAFE.lib("m", function (lib) {
  return function () { return this; };
});
