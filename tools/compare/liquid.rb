# Renders a page by Shopify's Liquid, with the command line of liquid_page: ruby liquid.rb TEMPLATE DATA [NAME=FILE ..]
require "json"
require "liquid"

# The partials that the command line names.
class Partials
  def initialize(words)
    @files = words.to_h { |word| word.split("=", 2) }
  end

  def read_template_file(name)
    text_of(@files.fetch(name))
  end
end

def text_of(file)
  File.read(file, encoding: "UTF-8")
end

template, data, *partials = ARGV
page = Liquid::Template.parse(text_of(template))
$stdout.write(page.render!(JSON.parse(text_of(data)), registers: { file_system: Partials.new(partials) }))
