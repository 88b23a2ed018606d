# Builds a site by Jekyll, and writes down each page that its Liquid makes: ruby jekyll.rb SITE OUT
#
# OUT/N.json has the template, the data, the partials that the page ran, each with its file, and the page; OUT/folders the folders in which
# the site's partials are, as a list. What only the site's builder makes is in the data: `conversions` of texts by `markdownify` and
# `smartify`, and `seo_tag`, what the tag `seo` wrote.
require "fileutils"
require_relative "plugins"
require_relative "values"

module Recording
  class << self
    attr_accessor :folder, :count, :partials, :conversions, :seo_tag
  end

  # What runs while the data is read is no page of its own.
  def render_liquid(content, payload, info, path = nil)
    return super if Recording.partials || !content.match?(/\{\{|\{%/)

    Recording.partials = {}
    data = Values.new.of(payload)
    Recording.partials = {}
    Recording.conversions = {}
    Recording.seo_tag = nil
    Jekyll::SeoTag.prepend(Tagging) if defined?(Jekyll::SeoTag) && !Jekyll::SeoTag.include?(Tagging)
    page = super
    data["conversions"] = Recording.conversions
    data["seo_tag"] = Recording.seo_tag
    Recording.write("template" => content, "data" => data, "partials" => Recording.partials, "page" => page, "path" => path.to_s)
    page
  ensure
    Recording.partials = Recording.conversions = nil
  end

  def self.write(page)
    self.count += 1
    File.write("#{folder}/#{format('%04d', count)}.json", JSON.generate(page))
  end
end

module Including
  def render(context)
    Recording.partials[name] = File.realpath(path) if Recording.partials
    super
  end
end

module Tagging
  def render(context)
    Recording.seo_tag = super
  end
end

module Converting
  %w[markdownify smartify].each do |name|
    define_method(name) do |input|
      made = super(input)
      (Recording.conversions[name] ||= {})[input.to_s] = made if Recording.conversions
      made
    end
  end
end

Jekyll::Filters.prepend(Converting)
Jekyll::Renderer.prepend(Recording)
Jekyll::Inclusion.prepend(Including)

source, Recording.folder = ARGV
Recording.count = 0
FileUtils.mkdir_p(Recording.folder)
Jekyll.logger.log_level = :error
Dir.mktmpdir do |out|
  options = { "source" => source, "destination" => out, "disable_disk_cache" => true, "plugins" => plugins_of(source) }
  site = Jekyll::Site.new(Jekyll.configuration(options))
  site.process
  # the site's own come before those of its theme
  File.write("#{Recording.folder}/folders", JSON.generate(site.includes_load_paths.select { |it| File.directory?(it) }))
end
