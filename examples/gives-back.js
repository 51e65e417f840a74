ADSAFE.lib("m", function (lib) {
  return lib;
});
