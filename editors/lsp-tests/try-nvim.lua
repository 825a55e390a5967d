-- Opens the file $FILE in Neovim with the server $SERVER, changes it, and writes what it shows into $SAID, a line each.
local said = io.open(vim.env.SAID, 'w')
local told = 0
local before = vim.lsp.handlers['textDocument/publishDiagnostics']
vim.lsp.handlers['textDocument/publishDiagnostics'] = function(...)
  told = told + 1
  return before(...)
end

local function faults(is_done)
  vim.wait(20000, function() return is_done(#vim.diagnostic.get(0)) end, 20)
  for _, it in ipairs(vim.diagnostic.get(0)) do
    said:write(string.format('fault %d:%d %s\n', it.lnum + 1, it.col + 1, vim.split(it.message, '\n')[1]))
  end
end

local function ask(method, line, column, more)
  local place = { textDocument = vim.lsp.util.make_text_document_params(), position = { line = line, character = column } }
  local found = vim.lsp.buf_request_sync(0, 'textDocument/' .. method, vim.tbl_extend('force', place, more or {}), 20000)
  local _, first = next(found or {})
  return first and first.result
end

local is_done, why = pcall(function()
  vim.cmd('edit ' .. vim.fn.fnameescape(vim.env.FILE))
  local id = vim.lsp.start_client({ cmd = { vim.env.SERVER }, name = 'freest', root_dir = vim.fn.getcwd() })
  vim.lsp.buf_attach_client(0, id)
  faults(function(count) return count == 2 end)
  said:write('hover ' .. vim.split(ask('hover', 3, 23).contents.value, '\n')[2] .. '\n')
  said:write('definition ' .. ask('definition', 7, 7)[1].range.start.line .. '\n')
  said:write('symbols ' .. #ask('documentSymbol', 0, 0) .. '\n')
  local range = { start = { line = 7, character = 7 }, ['end'] = { line = 7, character = 8 } }
  local mend = ask('codeAction', 7, 7, { range = range, context = { diagnostics = {} } })[1]
  said:write('mend ' .. mend.title .. '\n')
  vim.lsp.util.apply_workspace_edit(mend.edit, vim.lsp.get_client_by_id(id).offset_encoding or 'utf-16')
  said:write('line ' .. vim.fn.getline(8) .. '\n')
  faults(function(count) return count == 1 end)
  vim.api.nvim_buf_set_text(0, 3, 18, 3, 22, { '2' })
  faults(function(count) return count == 0 end)
  said:write('end ' .. #vim.diagnostic.get(0) .. '\n')
end)
said:close()
if not is_done then print(why) end
vim.cmd(is_done and 'qall!' or 'cquit')
