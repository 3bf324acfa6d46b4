--  An access value to an object that was freed (RM 13.11.2). The block of that object is handed out again, for a point that begins anew; B
--  still designates the first one, which is gone. To compare such a value is no use of what it designates, to write a component is one: the
--  run stops as USE_AFTER_FREE, and the point that is there now stays as it is.
with Ada.Text_IO; use Ada.Text_IO;
with Ada.Unchecked_Deallocation;
with Block_Pools; use Block_Pools;

procedure Stale_Link is
   type Point is record
      X, Y : Integer := 0;
   end record;

   Pool : Block_Pool (Block_Size => 16, Block_Count => 1);

   type Link is access Point with Storage_Pool => Pool;

   procedure Free is new Ada.Unchecked_Deallocation (Point, Link);

   A, B : Link;
begin
   A := new Point;
   A.X := 1;
   B := A;
   Free (A);
   Put_Line ("A is null: " & Boolean'Image (A = null) & ", B is null: " & Boolean'Image (B = null));
   A := new Point;
   Put_Line ("another point in the block, its X is" & Integer'Image (A.X));
   Put_Line ("A and B are one: " & Boolean'Image (A = B));
   B.X := 2;
   Put_Line ("written");
end Stale_Link;
