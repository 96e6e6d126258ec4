// Leaflet, of whose types Debian has no package.
declare const L: any;
