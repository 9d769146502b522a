// Starts the language server `ftl-lsp` for Fluent files, over the projects of those that are open.
const { existsSync } = require("fs");
const { basename, dirname, join } = require("path");
const { Uri, window, workspace } = require("vscode");
const { LanguageClient } = require("vscode-languageclient/node");

const projects = new Set();
let client;
let started;

// The project of a file: the nearest folder above it that has an ftl.toml or a .git; else the window's, else its own.
function projectOf(uri) {
  const own = dirname(uri.fsPath);
  for (let folder = own, below; folder !== below; below = folder, folder = dirname(folder)) {
    if (["ftl.toml", ".git"].some((mark) => existsSync(join(folder, mark)))) return folder;
  }
  const shown = workspace.getWorkspaceFolder(uri);
  return shown ? shown.uri.fsPath : own;
}

// Notes the project of a document. Says whether it is a new one.
function noteProject({ languageId, uri }) {
  if (languageId !== "fluent" || uri.scheme !== "file") return false;
  const count = projects.size;
  return projects.add(projectOf(uri)).size > count;
}

class Client extends LanguageClient {
  fillInitializeParams(params) {
    super.fillInitializeParams(params);
    params.workspaceFolders = [...projects].map((folder) => (
      { uri: Uri.file(folder).toString(), name: basename(folder) }
    ));
  }
}

exports.activate = ({ subscriptions }) => {
  const command = workspace.getConfiguration("fluent").get("program", "ftl-lsp");
  workspace.textDocuments.forEach(noteProject);
  // not the versions of a file that a comparison shows
  const documentSelector = ["file", "untitled"].map((scheme) => ({ language: "fluent", scheme }));
  client = new Client("ftl", "Fluent", { command }, { documentSelector });
  const reported = (starting) => starting.catch(({ message }) => {
    window.showErrorMessage(`Fluent: ${command} doesn't start: ${message}. Is it installed, or named in fluent.program?`);
  });
  started = reported(client.start());
  subscriptions.push(workspace.onDidOpenTextDocument((document) => {
    if (noteProject(document)) started = started.then(() => reported(client.restart()));
  }));
  return started;
};

exports.deactivate = () => client && client.stop();
