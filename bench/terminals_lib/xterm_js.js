// Terminals of xterm.js, without a renderer. Each line of standard input is `NUMBER COMMAND ARGUMENT..`; the answer is
// a line of JSON. The argument of node is the path of xterm.js's lib/Terminal.js.
const { Terminal } = require(process.argv[2]);
const terminals = new Map();

function display(terminal) {
  const { buffer, cols, rows } = terminal;
  const row = (y) => {
    const line = buffer.lines.get(buffer.ybase + y);
    return [...Array(cols).keys()].map((x) => {
      const [packed, glyph, width] = line.get(x);
      return [width, glyph, packed];
    });
  };
  return [[...Array(rows).keys()].map(row), [buffer.y, buffer.x, !terminal.cursorHidden]];
}

const commands = {
  new(number, rows, cols) {
    const terminal = new Terminal({ rows: +rows, cols: +cols, scrollback: 0 });
    // A change of pages tells the viewport, which only a terminal on a web page has.
    terminal.viewport = { syncScrollArea() {} };
    terminals.set(number, { terminal, decoder: new TextDecoder("utf-8", { ignoreBOM: true }) });
    return 0;
  },
  read(number, hex = "") {
    const { terminal, decoder } = terminals.get(number);
    terminal._inputHandler.parse(decoder.decode(Buffer.from(hex, "hex"), { stream: true }));
    return 0;
  },
  cursor: (number) => [terminals.get(number).terminal.buffer.y, terminals.get(number).terminal.buffer.x],
  display: (number) => display(terminals.get(number).terminal),
  end: (number) => terminals.delete(number),
};

require("readline").createInterface({ input: process.stdin }).on("line", (line) => {
  const [number, command, ...words] = line.split(" ");
  console.log(JSON.stringify(commands[command](number, ...words)));
});
