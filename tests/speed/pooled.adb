--  A loop that takes a block of a pool for a record of two numbers and gives it back.
with Ada.Text_IO; use Ada.Text_IO;
with Ada.Unchecked_Deallocation;
with Block_Pools; use Block_Pools;
procedure Pooled is
   Blocks : Block_Pool (Block_Size => 16, Block_Count => 2);
   type Pair is record
      First  : Integer;
      Second : Integer;
   end record;
   type Link is access Pair with Storage_Pool => Blocks;
   procedure Free is new Ada.Unchecked_Deallocation (Pair, Link);
   X : Link;
begin
   for I in 1 .. TURNS loop
      X := new Pair;
      Free (X);
   end loop;
   Put_Line (Boolean'Image (X = null));
end Pooled;
