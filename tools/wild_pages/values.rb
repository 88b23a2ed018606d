# What a page is rendered over, as JSON: maps, lists, texts, numbers, truth values and nil, in the place of Ruby's objects.
require "json"

class Values
  # members that lead from one document to others, and so to most of the site
  LINKS = %w[next previous related_posts].freeze
  MOST_DOCUMENTS = 2

  def initialize
    @within = []
    @documents = 0
  end

  def of(value)
    value = value.to_liquid if value.respond_to?(:to_liquid)
    case value
    when nil, true, false, Integer, Float then value
    when Symbol, String then value.to_s.dup.force_encoding("UTF-8").scrub
    when DateTime then of(value.to_time)
    when Time then value.strftime("%Y-%m-%d %H:%M:%S %z")
    when Date then value.strftime("%Y-%m-%d 00:00:00 +0000")
    else once(value) { parts(value) }
    end
  end

  private

  # Nothing where the value stands in itself.
  def once(value)
    return nil if @within.any? { |it| it.equal?(value) }

    @within.push(value)
    yield
  ensure
    @within.pop if @within.last.equal?(value)
  end

  def parts(value)
    case value
    when Array then value.map { |it| of(it) }
    when Hash then members(value, value.keys)
    when Liquid::Drop then value.respond_to?(:keys) ? document(value) : members(value.to_h, value.to_h.keys)
    else value.to_s
    end
  end

  # A document that stands in another one has no further ones.
  def document(drop)
    @documents += 1
    keys = drop.keys
    # a site has its collections by their names too
    keys |= drop["collections"].map { |it| it["label"] } if defined?(Jekyll::Drops::SiteDrop) && drop.is_a?(Jekyll::Drops::SiteDrop)
    keys -= LINKS if @documents > MOST_DOCUMENTS
    members(drop, keys)
  ensure
    @documents -= 1
  end

  def members(holder, keys)
    keys.to_h { |key| [key.to_s, of(holder[key])] }
  end
end
