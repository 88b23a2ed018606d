# frozen_string_literal: true

require 'bikleinu'
require 'jekyll'
require_relative 'jekyll-bikleinu/context'
require_relative 'jekyll-bikleinu/includes'
require_relative 'jekyll-bikleinu/source'
require_relative 'jekyll-bikleinu/host'
require_relative 'jekyll-bikleinu/engine'
require_relative 'jekyll-bikleinu/rendering'

# Renders the pages of a Jekyll site by Bikleinu: `plugins: [jekyll-bikleinu]`. What its language refuses is rendered by Liquid, as before.
module JekyllBikleinu
  # The engine of a site, for one build.
  def self.engine(site)
    engines = (@engines ||= {}.compare_by_identity)
    engines[site] ||= Engine.new(site)
  end
end

Jekyll::LiquidRenderer::File.prepend(JekyllBikleinu::Rendering)
Jekyll::Hooks.register(:site, :after_reset) { |site| JekyllBikleinu.engine(site).begin_build }
Jekyll::Hooks.register(:site, :post_write) { |site| JekyllBikleinu.engine(site).report }
