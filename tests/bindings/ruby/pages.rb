# frozen_string_literal: true

require_relative 'checks'
require 'json'

# The worked rows of tests/rows, from Ruby: the text and the kind of each page, over its data as a text of JSON, as data for its template,
# and as a Hash, of which no more is converted than the template asks for.
module Pages
  extend Checks

  module_function

  # A text, of which parts may stand so many times.
  def whole(text)
    return text if text.is_a?(String)

    text.map { |part| part.is_a?(String) ? part : part[0] * part[1] }.join
  end

  # The rows whose pages are made of texts.
  def rows
    Dir["#{Checks::TOP}/tests/rows/*.json"].flat_map do |path|
      JSON.parse(File.read(path, encoding: 'UTF-8'))['rows'].reject { |row| row.key?('words') || row['cut'] }
    end
  end

  def kind_of(error)
    error && error.message[/\A\w+/]
  end

  # An environment with the partials of a row, which are read after its template and its data.
  def environment(row, json)
    made = Bikleinu::Environment.new
    made.parse(whole(row['source']))
    made.data(json)
    row.fetch('partials', {}).each { |name, source| made.insert(name, whole(source)) }
    made
  end

  # The pages of a row over its data in each form, and the kinds of the faults that they end by.
  def pages(row)
    json = row.key?('data_text') ? whole(row['data_text']) : JSON.generate(row.fetch('data', {}))
    template = environment(row, json).parse(whole(row['source']))
    forms = [json, template.data(json)]
    forms << row.fetch('data', {}) unless row.key?('data_text')
    forms.map { |data| [template.page(data).text, kind_of(template.page(data).fault)] }
  rescue Bikleinu::Error => e
    [['', kind_of(e)]]
  end

  def run
    rows.each do |row|
      wanted = [whole(row.fetch('text', '')), row.key?('parse_fault') ? row['parse_fault'] : row['kind']]
      same(whole(row['source'])[0, 80], [wanted]) { pages(row).uniq }
    end
  end
end

Pages.run
Checks.report
