--  A pool closes behind its finalization (RM 7.6.1, 13.11). The collection of Old was frozen before the pool was declared, so it is an older
--  layer of the block: its member is finalized when the pool is closed. A request of a pool that is closed stops the run as USE_AFTER_FREE.
with Ada.Finalization; use Ada.Finalization;
with Ada.Text_IO;      use Ada.Text_IO;
with Block_Pools;      use Block_Pools;

procedure Closed_Pool is
   type Point is record
      X, Y : Integer;
   end record;
begin
   declare
      type Last_One is new Limited_Controlled with null record;

      overriding procedure Finalize (X : in out Last_One);

      type Old is access Last_One;

      Last : Old;

      Pool : Block_Pool (Block_Size => 16, Block_Count => 2);

      type Link is access Point with Storage_Pool => Pool;

      A : Link;

      procedure Finalize (X : in out Last_One) is
      begin
         Put_Line ("the last one wants a point");
         A := new Point;
         Put_Line ("made");
      end Finalize;
   begin
      Last := new Last_One;
      A := new Point;
      Put_Line ("a point in the open pool");
   end;
end Closed_Pool;
