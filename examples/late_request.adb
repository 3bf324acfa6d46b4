--  Program_Error in a pool. Where the Finalize of an object that is freed raises, the access value becomes null, the object is gone and its
--  block is given back all the same; then Program_Error is raised (RM 7.6.1, 13.11.2). And an allocator raises it where the finalization of
--  the collection has started and the object needs finalization (RM 4.8): then the pool is not asked.
with Ada.Finalization; use Ada.Finalization;
with Ada.Text_IO;      use Ada.Text_IO;
with Ada.Unchecked_Deallocation;
with Block_Pools;      use Block_Pools;

procedure Late_Request is
begin
   declare
      --  A part takes 16 storage units.
      Pool : Block_Pool (Block_Size => 16, Block_Count => 1);

      type Part;
      type Link is access Part with Storage_Pool => Pool;
      type Part is new Limited_Controlled with record
         Fails : Boolean := False;
      end record;

      overriding procedure Finalize (X : in out Part);

      procedure Free is new Ada.Unchecked_Deallocation (Part, Link);

      A : Link;

      procedure Finalize (X : in out Part) is
         Next : Link;
      begin
         if X.Fails then
            Put_Line ("   a part fails");
            raise Constraint_Error;
         end if;
         Next := new Part;
         Put_Line ("   another part");
      exception
         when Program_Error =>
            Put_Line ("   too late for another part");
      end Finalize;
   begin
      A := new Part;
      A.Fails := True;
      begin
         Free (A);
      exception
         when Program_Error =>
            Put_Line ("Program_Error, A is null: " & Boolean'Image (A = null));
      end;
      A := new Part;
      Put_Line ("the block was given back");
   end;
end Late_Request;
