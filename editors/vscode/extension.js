// The language server of t1edit in VS Code: it is started, its commands have a place in the palette, and a font's file is shown as its source.
"use strict";

const vscode = require("vscode");
const { LanguageClient } = require("vscode-languageclient/node");

const SCHEME = "t1edit-source";
let client;

function settings() {
  return vscode.workspace.getConfiguration("t1edit");
}

function started() {
  const [command, ...args] = settings().get("server");
  const { writeOnSave, pictures } = settings();
  return new LanguageClient(
    "t1edit",
    "t1edit",
    { command, args },
    {
      documentSelector: [{ language: "t1" }],
      initializationOptions: { writeOnSave, pictures },
      synchronize: { configurationSection: "t1edit" },
    },
  );
}

// What the server gives for a command of its own.
function perform(command, ...args) {
  return client.sendRequest("workspace/executeCommand", { command, arguments: args });
}

function here() {
  const editor = vscode.window.activeTextEditor;
  return editor && editor.document.languageId === "t1" ? editor : undefined;
}

async function writeFiles() {
  const editor = here();
  if (editor && (await editor.document.save())) {
    await perform("t1edit.write", editor.document.uri.toString(), "pfb", "afm");
  }
}

async function openPage() {
  const editor = here();
  if (editor) {
    const { line, character } = editor.selection.active;
    await perform("t1edit.page", editor.document.uri.toString(), line, character);
  }
}

async function showSource(uri) {
  const given = uri || (await vscode.window.showOpenDialog({ filters: { "Type 1 fonts": ["pfb", "pfa"] } }) || [])[0];
  if (given) {
    const document = await vscode.workspace.openTextDocument(given.with({ scheme: SCHEME }));
    await vscode.languages.setTextDocumentLanguage(document, "t1");
    await vscode.window.showTextDocument(document);
  }
}

// A font's file that is opened: its source is shown in place of its bytes.
const fonts = {
  openCustomDocument: (uri) => ({ uri, dispose() {} }),
  async resolveCustomEditor(document, panel) {
    await showSource(document.uri);
    panel.dispose();
  },
};

async function activate(context) {
  client = started();
  const { registerCommand } = vscode.commands;
  const content = { provideTextDocumentContent: (uri) => perform("t1edit.source", uri.with({ scheme: "file" }).toString()) };
  context.subscriptions.push(
    registerCommand("t1edit.writeFiles", writeFiles),
    registerCommand("t1edit.openPage", openPage),
    registerCommand("t1edit.showSource", showSource),
    vscode.workspace.registerTextDocumentContentProvider(SCHEME, content),
    vscode.window.registerCustomEditorProvider("t1edit.font", fonts),
  );
  await client.start();
}

function deactivate() {
  return client && client.stop();
}

module.exports = { activate, deactivate };
