// Prints the head that llhttp finds in each line of standard input, a text in JSON.
const { HTTPParser, methods } = process.binding('http_parser');
const lines = require('fs').readFileSync(0, 'latin1').split('\n').filter((line) => line);
function read(text, kind, more) {
  const parser = new HTTPParser();
  parser.initialize(kind, {});
  const said = { fields: [], body: 0, head: false, done: false, more: false };
  parser[HTTPParser.kOnHeaders | 0] = (fields) => { said.fields.push(...fields); };
  parser[HTTPParser.kOnHeadersComplete | 0] =
    (major, minor, fields, method, target, status, reason) => {
      said.head = true;
      if (fields) said.fields = fields;
      Object.assign(said, { method: methods[method], target, status, reason });
      return 0;
    };
  parser[HTTPParser.kOnBody | 0] = (part) => { said.body += part.length; };
  parser[HTTPParser.kOnMessageComplete | 0] = () => { said.done = true; };
  let end = parser.execute(text);
  if (said.head && !said.done && !(end instanceof Error)) {
    said.more = true;
    end = parser.execute(more);
  }
  if (end instanceof Error) said.fault = end.code;
  return said;
}
for (const line of lines) {
  const { kind, text, more } = JSON.parse(line);
  const bytes = [text, more].map((it) => Buffer.from(it, 'latin1'));
  console.log(JSON.stringify(read(bytes[0], kind, bytes[1])));
}
