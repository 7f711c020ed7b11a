// What scripts take of Node, of which Debian 12 has no types.
declare module 'node:*';
declare const process: any, Buffer: any;
