-- Writes what the server found in the open text into the file `shown`, applies edits, writes how many into `edits`, and saves the text.
local MOST_MILLISECONDS = 60000

local function diagnostics()
  return vim.diagnostic.get(0)
end

-- Whether the server has answered once more.
local answers = 0
local publish = vim.lsp.handlers["textDocument/publishDiagnostics"]
vim.lsp.handlers["textDocument/publishDiagnostics"] = function(...)
  publish(...)
  answers = answers + 1
end

local function wait_for_answer(last)
  return vim.wait(MOST_MILLISECONDS, function() return answers > last end, 20)
end

local function write(name, lines)
  local file = assert(io.open(name, "w"))
  for _, line in ipairs(lines) do file:write(line, "\n") end
  file:close()
end

-- The first edit that the server has for the line of a finding.
local function edit_for(finding)
  local place = { line = finding.lnum, character = finding.col }
  local params = {
    textDocument = vim.lsp.util.make_text_document_params(0),
    range = { start = place, ["end"] = place },
    context = { diagnostics = { (finding.user_data and finding.user_data.lsp) or nil } },
  }
  for _, answer in pairs(vim.lsp.buf_request_sync(0, "textDocument/codeAction", params, MOST_MILLISECONDS) or {}) do
    for _, action in ipairs(answer.result or {}) do
      if action.edit then return action.edit end
    end
  end
end

-- The server may have answered before this file was read.
vim.wait(MOST_MILLISECONDS, function() return answers > 0 or #diagnostics() > 0 end, 20)
local shown = {}
for _, finding in ipairs(diagnostics()) do
  table.insert(shown, (finding.lnum + 1) .. " " .. finding.message)
end
write("shown", shown)

local edits = 0
while #diagnostics() > 0 and edits < 5 do
  local edit = edit_for(diagnostics()[1])
  if not edit then break end
  local last = answers
  vim.lsp.util.apply_workspace_edit(edit, "utf-16")
  edits = edits + 1
  if not wait_for_answer(last) then break end
end
write("edits", { edits .. " edits, " .. #diagnostics() .. " left" })
vim.cmd("silent write")
vim.cmd("qall!")
