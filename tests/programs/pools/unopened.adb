--  The Initialize of a pool fails: what is complete of it is finalized, and it is not (RM 7.6.1).
with Ada.Finalization; use Ada.Finalization;
with Ada.Text_IO;      use Ada.Text_IO;
with Block_Pools;      use Block_Pools;

procedure Unopened is
   type Part is new Controlled with null record;

   overriding procedure Finalize (X : in out Part);

   type Pool is new Block_Pool with record
      Held : Part;
   end record;

   overriding procedure Initialize (X : in out Pool);
   overriding procedure Finalize (X : in out Pool);

   Denied : exception;

   procedure Finalize (X : in out Part) is
   begin
      Put_Line ("part");
   end Finalize;

   procedure Initialize (X : in out Pool) is
   begin
      Put_Line ("I");
      raise Denied;
   end Initialize;

   procedure Finalize (X : in out Pool) is
   begin
      Put_Line ("F");
   end Finalize;
begin
   declare
      P : Pool (8, 1);
   begin
      Put_Line ("open");
   end;
exception
   when Denied =>
      Put_Line ("denied");
end Unopened;
