// Runs editors/vscode/extension.js over stand-ins for VS Code and its client, and writes what it has registered and asked for.
"use strict";

const Module = require("module");
const asked = [];
const registered = [];
const settings = { server: ["t1edit-lsp", "--stdio"], writeOnSave: ["pfb"], pictures: true };
const editor = {
  document: { languageId: "t1", uri: "file:///font.t1", save: async () => true },
  selection: { active: { line: 3, character: 4 } },
};
class Uri {
  constructor(scheme, path) {
    Object.assign(this, { scheme, path });
  }
  with({ scheme }) {
    return new Uri(scheme, this.path);
  }
  toString() {
    return `${this.scheme}://${this.path}`;
  }
}
const calls = {};
function register(name, call) {
  registered.push(name);
  calls[name] = call;
  return { dispose() {} };
}
const vscode = {
  workspace: {
    getConfiguration: () => ({ ...settings, get: (name) => settings[name] }),
    openTextDocument: async (uri) => ({ uri, text: await calls["t1edit-source"].provideTextDocumentContent(uri) }),
    registerTextDocumentContentProvider: register,
  },
  window: {
    activeTextEditor: editor,
    showTextDocument: async (it) => asked.push(["shown", it.uri.toString(), it.text]),
    registerCustomEditorProvider: register,
  },
  languages: { setTextDocumentLanguage: async (it, language) => asked.push(["language", language]) },
  commands: { registerCommand: register },
};
class LanguageClient {
  constructor(id, name, server, options) {
    asked.push(["server", server.command, ...server.args, options.initializationOptions]);
  }
  async start() {
    asked.push(["started"]);
  }
  async stop() {
    asked.push(["stopped"]);
  }
  async sendRequest(method, { command, arguments: words }) {
    asked.push([method, command, ...words]);
    return "the source";
  }
}
const load = Module._load;
Module._load = (name, ...rest) => {
  const standing = { vscode, "vscode-languageclient/node": { LanguageClient } };
  return standing[name] || load(name, ...rest);
};

(async () => {
  const extension = require(process.argv[2]);
  await extension.activate({ subscriptions: [] });
  await calls["t1edit.writeFiles"]();
  await calls["t1edit.openPage"]();
  const font = calls["t1edit.font"];
  let isDisposed = false;
  await font.resolveCustomEditor(font.openCustomDocument(new Uri("file", "/font.pfb")), { dispose: () => (isDisposed = true) });
  await extension.deactivate();
  console.log(JSON.stringify({ registered, asked, isDisposed }));
})();
